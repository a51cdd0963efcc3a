//! The lines of the replay form, read and written.

use std::fmt;

#[derive(Debug, Clone, Copy, PartialEq, Eq)]
pub enum Policy {
    Fifo,
    Refresh,
}

impl fmt::Display for Policy {
    fn fmt(&self, f: &mut fmt::Formatter<'_>) -> fmt::Result {
        f.write_str(match self {
            Policy::Fifo => "fifo",
            Policy::Refresh => "refresh",
        })
    }
}

/// A span of a node by document 01's number.
#[derive(Debug, Clone, Copy, PartialEq, Eq)]
pub struct NodeSpan {
    pub node: u32,
    pub start: u32,
    pub end: u32,
}

#[derive(Debug, Clone, PartialEq)]
pub enum Bytes {
    Each(u64),
    Table(Vec<u64>),
}

impl Bytes {
    /// The 1,025 entries.
    pub fn table(&self) -> Vec<u64> {
        match self {
            Bytes::Each(n) => (0..=1024).map(|k| n.saturating_mul(k)).collect(),
            Bytes::Table(t) => t.clone(),
        }
    }
}

#[derive(Debug, Clone, PartialEq)]
pub enum Op {
    Setup {
        bytes: Bytes,
        stores: Vec<(u64, Policy)>,
    },
    Insert(Vec<u64>),
    Resolve(Vec<u64>),
    Bring {
        store: usize,
        span: NodeSpan,
        time: f64,
        write: u32,
    },
    Touch {
        store: usize,
        time: f64,
        counted: bool,
        spans: Vec<NodeSpan>,
    },
    Remove(usize, NodeSpan),
    Expire {
        store: usize,
        now: f64,
        seconds: f64,
    },
    Pin(usize, NodeSpan),
    Unpin(usize, NodeSpan),
    Lookup {
        tiers: Vec<usize>,
        hashes: Vec<u64>,
    },
    State,
}

impl Op {
    /// The store that the line names, if it names one.
    pub fn store(&self) -> Option<usize> {
        match self {
            Op::Bring { store, .. } | Op::Touch { store, .. } | Op::Expire { store, .. } => {
                Some(*store)
            }
            Op::Remove(store, _) | Op::Pin(store, _) | Op::Unpin(store, _) => Some(*store),
            _ => None,
        }
    }

    /// The times and numbers of seconds that the line names.
    pub fn times(&self) -> Vec<f64> {
        match self {
            Op::Bring { time, .. } | Op::Touch { time, .. } => vec![*time],
            Op::Expire { now, seconds, .. } => vec![*now, *seconds],
            _ => Vec::new(),
        }
    }

    /// The hashes that the line names.
    pub fn hashes(&self) -> &[u64] {
        match self {
            Op::Insert(h) | Op::Resolve(h) | Op::Lookup { hashes: h, .. } => h,
            _ => &[],
        }
    }

    /// The spans that the line names.
    pub fn spans(&self) -> Vec<NodeSpan> {
        match self {
            Op::Bring { span, .. } => vec![*span],
            Op::Remove(_, span) | Op::Pin(_, span) | Op::Unpin(_, span) => vec![*span],
            Op::Touch { spans, .. } => spans.clone(),
            _ => Vec::new(),
        }
    }
}

/// A time as the state prints it: whole numbers below 2^53 as such, others as
/// their binary64 pattern.
pub fn time_in_state(t: f64) -> String {
    let negative_zero = t == 0.0 && t.is_sign_negative();
    if t.fract() == 0.0 && t.abs() < 9007199254740992.0 && !negative_zero {
        format!("{}", t as i64)
    } else {
        format!("x{:016x}", t.to_bits())
    }
}

/// A time as a line gives it: `inf`, `-inf`, `nan`, decimal digits where at
/// most 15 say it exactly, else its pattern.
pub fn time_in_line(t: f64) -> String {
    let text = format!("{t}").to_lowercase();
    let digits = text.bytes().filter(u8::is_ascii_digit).count();
    if digits <= 15 {
        text
    } else {
        format!("x{:016x}", t.to_bits())
    }
}

fn read_number(word: &str) -> Result<u64, String> {
    if word.is_empty() || !word.bytes().all(|b| b.is_ascii_digit()) {
        return Err(format!("'{word}' is no number"));
    }
    word.parse()
        .map_err(|_| format!("'{word}' is above 2^64 - 1"))
}

fn read_small(word: &str) -> Result<u32, String> {
    u32::try_from(read_number(word)?).map_err(|_| format!("'{word}' is too large"))
}

fn read_numbers(words: &[&str]) -> Result<Vec<u64>, String> {
    words.iter().map(|w| read_number(w)).collect()
}

pub fn read_time(word: &str) -> Result<f64, String> {
    let odd = || format!("'{word}' is no time");
    if let Some(hex) = word.strip_prefix('x') {
        if hex.len() != 16 || !hex.bytes().all(|b| b.is_ascii_hexdigit()) {
            return Err(odd());
        }
        return Ok(f64::from_bits(u64::from_str_radix(hex, 16).unwrap()));
    }
    match word {
        "inf" => return Ok(f64::INFINITY),
        "-inf" => return Ok(f64::NEG_INFINITY),
        "nan" => return Ok(f64::NAN),
        _ => {}
    }
    let body = word.strip_prefix('-').unwrap_or(word);
    let (whole, part) = body.split_once('.').unwrap_or((body, ""));
    let digits = format!("{whole}{part}");
    let dotted = body.contains('.');
    if whole.is_empty() || (dotted && part.is_empty()) || digits.len() > 15 {
        return Err(odd());
    }
    let value = read_number(&digits).map_err(|_| odd())? as f64 / 10f64.powi(part.len() as i32);
    Ok(if body.len() < word.len() {
        -value
    } else {
        value
    })
}

fn read_span(words: &[&str]) -> Result<NodeSpan, String> {
    let [node, start, end] = words else {
        return Err("a span is NODE START END".into());
    };
    Ok(NodeSpan {
        node: read_small(node)?,
        start: read_small(start)?,
        end: read_small(end)?,
    })
}

fn read_stores(words: &[&str]) -> Result<Vec<(u64, Policy)>, String> {
    if words.len() % 2 != 0 {
        return Err("a store is CAP POLICY".into());
    }
    words
        .chunks(2)
        .map(|pair| {
            let policy = match pair[1] {
                "fifo" => Policy::Fifo,
                "refresh" => Policy::Refresh,
                other => return Err(format!("'{other}' is no policy")),
            };
            Ok((read_number(pair[0])?, policy))
        })
        .collect()
}

fn read_setup(words: &[&str]) -> Result<Op, String> {
    match words {
        ["each", n, stores @ ..] => Ok(Op::Setup {
            bytes: Bytes::Each(read_number(n)?),
            stores: read_stores(stores)?,
        }),
        ["table", rest @ ..] => {
            let at = rest.iter().position(|w| *w == "stores");
            let at = at.ok_or("a table ends in 'stores'")?;
            Ok(Op::Setup {
                bytes: Bytes::Table(read_numbers(&rest[..at])?),
                stores: read_stores(&rest[at + 1..])?,
            })
        }
        _ => Err("a set-up is 'each' or 'table'".into()),
    }
}

fn read_touch(words: &[&str]) -> Result<Op, String> {
    let [store, time, counted, spans @ ..] = words else {
        return Err("touch S TIME COUNTED NODE START END ..".into());
    };
    if spans.len() % 3 != 0 || !matches!(*counted, "0" | "1") {
        return Err("touch S TIME COUNTED NODE START END ..".into());
    }
    Ok(Op::Touch {
        store: read_small(store)? as usize,
        time: read_time(time)?,
        counted: *counted == "1",
        spans: spans.chunks(3).map(read_span).collect::<Result<_, _>>()?,
    })
}

fn read_lookup(words: &[&str]) -> Result<Op, String> {
    let (tiers, hashes) = match words {
        [":", hashes @ ..] => (Vec::new(), hashes),
        [tiers, ":", hashes @ ..] => (tiers.split(',').collect(), hashes),
        _ => return Err("lookup S,S,.. : H ..".into()),
    };
    let tiers: Result<Vec<u32>, String> = tiers.iter().map(|w| read_small(w)).collect();
    Ok(Op::Lookup {
        tiers: tiers?.into_iter().map(|s| s as usize).collect(),
        hashes: read_numbers(hashes)?,
    })
}

/// Reads one line; none for an empty line or a remark.
pub fn read_line(line: &str) -> Result<Option<Op>, String> {
    let words: Vec<&str> = line.split(' ').filter(|w| !w.is_empty()).collect();
    if words.is_empty() || words[0].starts_with('#') {
        return Ok(None);
    }
    let store = |w: &str| read_small(w).map(|s| s as usize);
    let op = match words.as_slice() {
        ["setup", rest @ ..] => read_setup(rest)?,
        ["insert", rest @ ..] => Op::Insert(read_numbers(rest)?),
        ["resolve", rest @ ..] => Op::Resolve(read_numbers(rest)?),
        ["bring", s, span @ .., time, write] => Op::Bring {
            store: store(s)?,
            span: read_span(span)?,
            time: read_time(time)?,
            write: read_small(write)?,
        },
        ["touch", rest @ ..] => read_touch(rest)?,
        ["remove", s, span @ ..] => Op::Remove(store(s)?, read_span(span)?),
        ["expire", s, now, seconds] => Op::Expire {
            store: store(s)?,
            now: read_time(now)?,
            seconds: read_time(seconds)?,
        },
        ["pin", s, span @ ..] => Op::Pin(store(s)?, read_span(span)?),
        ["unpin", s, span @ ..] => Op::Unpin(store(s)?, read_span(span)?),
        ["lookup", rest @ ..] => read_lookup(rest)?,
        ["state"] => Op::State,
        _ => return Err("no such line".into()),
    };
    Ok(Some(op))
}

fn joined<T: fmt::Display>(items: &[T]) -> String {
    items.iter().map(|i| format!(" {i}")).collect()
}

impl fmt::Display for NodeSpan {
    fn fmt(&self, f: &mut fmt::Formatter<'_>) -> fmt::Result {
        write!(f, "{} {} {}", self.node, self.start, self.end)
    }
}

fn setup_text(bytes: &Bytes, stores: &[(u64, Policy)]) -> String {
    let bytes = match bytes {
        Bytes::Each(n) => format!("each {n}"),
        Bytes::Table(t) => format!("table{} stores", joined(t)),
    };
    let stores: String = stores.iter().map(|(c, p)| format!(" {c} {p}")).collect();
    format!("setup {bytes}{stores}")
}

fn lookup_text(tiers: &[usize], hashes: &[u64]) -> String {
    let list: Vec<String> = tiers.iter().map(usize::to_string).collect();
    let space = if tiers.is_empty() { "" } else { " " };
    format!("lookup{space}{} :{}", list.join(","), joined(hashes))
}

impl Op {
    fn text(&self) -> String {
        let time = |t: &f64| time_in_line(*t);
        match self {
            Op::Setup { bytes, stores } => setup_text(bytes, stores),
            Op::Insert(h) => format!("insert{}", joined(h)),
            Op::Resolve(h) => format!("resolve{}", joined(h)),
            Op::Bring {
                store: s,
                span,
                time: t,
                write,
            } => format!("bring {s} {span} {} {write}", time(t)),
            Op::Touch {
                store: s,
                time: t,
                counted,
                spans,
            } => format!("touch {s} {} {}{}", time(t), *counted as u8, joined(spans)),
            Op::Remove(s, span) => format!("remove {s} {span}"),
            Op::Expire {
                store: s,
                now,
                seconds,
            } => format!("expire {s} {} {}", time(now), time(seconds)),
            Op::Pin(s, span) => format!("pin {s} {span}"),
            Op::Unpin(s, span) => format!("unpin {s} {span}"),
            Op::Lookup { tiers, hashes } => lookup_text(tiers, hashes),
            Op::State => "state".into(),
        }
    }
}

impl fmt::Display for Op {
    fn fmt(&self, f: &mut fmt::Formatter<'_>) -> fmt::Result {
        f.write_str(&self.text())
    }
}
