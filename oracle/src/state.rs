//! The whole state by absolute positions and hashes, without node numbers and
//! ids: from the Rust, and from a `state` line of the replay form.

use crate::absolute::{self, Blocks};
use crate::form::{time_in_state, Policy};
use crate::kv_cache::radix::{peek, NodeId, Radix, Span, TierSource};
use std::collections::BTreeMap;

/// A part of a store's line: what it is sorted by, and its text.
type Part = ((u32, u32, u64), String);

fn sorted(mut parts: Vec<Part>) -> String {
    parts.sort();
    parts.into_iter().map(|(_, text)| text).collect()
}

/// The absolute ends and the last hash of a span. A pin that a cut left
/// behind ends past its node; its last hash is then its node's.
fn key(radix: &Radix, node: NodeId, start: u32, end: u32) -> (u32, u32, u64) {
    let depth = peek::depth(radix, node);
    let hashes = peek::hashes(radix, node);
    let last = hashes.get(end as usize - 1).or(hashes.last());
    (depth + start, depth + end, last.copied().unwrap_or(0))
}

fn span_text(key: (u32, u32, u64)) -> String {
    format!("{}-{} last={}", key.0, key.1, key.2)
}

fn record_parts(radix: &Radix, store: usize) -> Vec<Part> {
    let one = |(rank, r): (usize, &peek::Held)| {
        let key = key(radix, r.node, r.start, r.end);
        let dead = Span {
            node: r.node,
            start: r.start.max(peek::mark(radix, store, r.node).unwrap_or(0)),
            end: r.end,
        };
        let dead = if dead.is_empty() {
            0
        } else {
            radix.span_bytes(dead)
        };
        let (stamp, time) = (r.stamp, time_in_state(r.time));
        let write = r.write.as_deref().unwrap_or("0");
        let span = span_text(key);
        let text = format!(
            " | r {store} {span} #{} st={stamp} t={time} w={write} dead={dead}",
            rank + 1
        );
        (key, text)
    };
    peek::held(radix, store)
        .iter()
        .enumerate()
        .map(one)
        .collect()
}

fn pin_parts(radix: &Radix, store: usize) -> Vec<Part> {
    let one = |p: &peek::Pin| {
        let key = key(radix, p.node, p.start, p.end);
        (
            key,
            format!(" | p {store} {} c={}", span_text(key), p.count),
        )
    };
    peek::pins(radix, store).iter().map(one).collect()
}

fn mark_parts(radix: &Radix, store: usize) -> Vec<Part> {
    let one = |node: NodeId| {
        let mark = peek::mark(radix, store, node).filter(|m| *m > 0)?;
        let key = key(radix, node, 0, mark);
        Some((key, format!(" | m {store} {}", span_text(key))))
    };
    (1..peek::numbers(radix)).filter_map(one).collect()
}

/// The state of the first stores of a tree.
pub fn absolute(radix: &Radix, stores: &[(u64, Policy)]) -> String {
    let mut line = format!("absolute stalls={}", radix.pin_stalls());
    for (store, (capacity, policy)) in stores.iter().enumerate() {
        line += &format!(
            " | s {store} cap={capacity} pol={policy} held={} stamp={} ver={} pinned={} avail={}",
            radix.store_held(store),
            peek::stamp(radix, store),
            radix.source_version(TierSource::Store(store)),
            radix.store_pinned_blocks(store),
            radix.store_available_for_stage(store)
        );
        line += &sorted(record_parts(radix, store));
        line += &sorted(pin_parts(radix, store));
        line += &sorted(mark_parts(radix, store));
    }
    line
}

/// The words of a part as `name=value`, and the bare ones in order.
struct Words<'a> {
    bare: Vec<&'a str>,
    named: Vec<(&'a str, &'a str)>,
}

impl<'a> Words<'a> {
    fn of(part: &'a str) -> Self {
        let (mut bare, mut named) = (Vec::new(), Vec::new());
        for word in part.split(' ') {
            match word.split_once('=') {
                Some(pair) => named.push(pair),
                None => bare.push(word),
            }
        }
        Self { bare, named }
    }

    fn text(&self, name: &str) -> Option<&'a str> {
        let found = self.named.iter().find(|w| w.0 == name);
        found.map(|w| w.1)
    }

    fn number(&self, name: &str) -> Option<u64> {
        self.text(name)?.parse().ok()
    }

    /// The bare word at a place, as a number.
    fn bare(&self, at: usize) -> Option<u32> {
        self.bare.get(at)?.parse().ok()
    }

    /// The node, the absolute ends and the last hash of a record or pin.
    fn key(&self) -> Option<(u32, (u32, u32, u64))> {
        let node = self.bare.get(2)?.split_once(':')?.0.parse().ok()?;
        let (from, upto) = self.text("abs")?.split_once('-')?;
        let ends = (from.parse().ok()?, upto.parse().ok()?);
        Some((node, (ends.0, ends.1, self.number("last")?)))
    }
}

/// What a `state` line says of one store, gathered before it is printed.
#[derive(Default)]
struct StoreLines<'a> {
    head: &'a str,
    records: Vec<Words<'a>>,
    pins: Vec<Words<'a>>,
    marks: BTreeMap<u32, u32>,
}

impl<'a> StoreLines<'a> {
    fn add(&mut self, words: Words<'a>) -> Option<()> {
        match words.bare[0] {
            "r" => self.records.push(words),
            "p" => self.pins.push(words),
            "m" => drop(self.marks.insert(words.bare(2)?, words.bare(3)?)),
            _ => return None,
        }
        Some(())
    }

    fn record(&self, rank: usize, w: &Words, tree: &impl Blocks, table: &[u64]) -> Option<Part> {
        let (node, key) = w.key()?;
        let mark = tree.depth(node)? + self.marks.get(&node).copied().unwrap_or(0);
        let from = key.0.max(mark).min(key.1);
        let dead = table.get(key.1 as usize)? - table.get(from as usize)?;
        let (store, span) = (w.bare[1], span_text(key));
        let (stamp, time, write) = (w.text("st")?, w.text("t")?, w.text("w")?);
        let text = format!(" | r {store} {span} #{rank} st={stamp} t={time} w={write} dead={dead}");
        Some((key, text))
    }

    fn record_parts(&self, tree: &impl Blocks, table: &[u64]) -> Option<Vec<Part>> {
        let mut order: Vec<&Words> = self.records.iter().collect();
        order.sort_by_cached_key(|w| (w.number("st"), w.number("id")));
        let ranked = order.iter().enumerate();
        ranked
            .map(|(i, w)| self.record(i + 1, w, tree, table))
            .collect()
    }

    fn pin_parts(&self) -> Option<Vec<Part>> {
        let one = |w: &Words| {
            let (store, key, count) = (w.bare[1], w.key()?.1, w.text("c")?);
            let span = span_text(key);
            Some((key, format!(" | p {store} {span} c={count}")))
        };
        self.pins.iter().map(one).collect()
    }

    fn mark_parts(&self, tree: &impl Blocks, store: usize) -> Option<Vec<Part>> {
        let one = |(&node, &mark): (&u32, &u32)| {
            let key = absolute::key(tree, node, 0, mark)?;
            Some((key, format!(" | m {store} {}", span_text(key))))
        };
        self.marks.iter().map(one).collect()
    }
}

/// A `state` line of the replay form, as `absolute` would print it; none
/// where it is no such line. The tree tells depths and hashes by number.
pub fn from_form(line: &str, tree: &impl Blocks, table: &[u64]) -> Option<String> {
    let mut parts = line.split(" | ");
    let head = Words::of(parts.next()?);
    let mut stores: Vec<StoreLines> = Vec::new();
    for part in parts.filter(|p| !p.starts_with("n ")) {
        if part.starts_with("s ") {
            let head = part;
            stores.push(StoreLines {
                head,
                ..Default::default()
            });
        } else {
            stores.last_mut()?.add(Words::of(part))?;
        }
    }
    let mut out = format!("absolute stalls={}", head.text("stalls")?);
    for (s, store) in stores.iter().enumerate() {
        out += &format!(" | {}", store.head);
        out += &sorted(store.record_parts(tree, table)?);
        out += &sorted(store.pin_parts()?);
        out += &sorted(store.mark_parts(tree, s)?);
    }
    Some(out)
}
