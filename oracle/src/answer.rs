//! The answer to one call, and its two texts: by document 01's node numbers,
//! and by absolute positions and hashes.

#[derive(Debug, Clone, Copy, PartialEq, Eq)]
pub enum View {
    Form,
    Absolute,
}

/// A span by node number and by absolute position. The number is 0 where
/// document 01 has none for it.
#[derive(Debug, Clone, Copy, PartialEq, Eq)]
pub struct Place {
    pub number: u32,
    pub start: u32,
    pub end: u32,
    pub depth: u32,
    /// The hash of the span's last block; 0 where it has none.
    pub last: u64,
}

impl Place {
    fn absolute(&self) -> String {
        let (from, upto) = (self.depth + self.start, self.depth + self.end);
        format!("{from}-{upto},last={}", self.last)
    }

    fn text(&self, view: View) -> String {
        match view {
            View::Form => format!("{}:{}-{}", self.number, self.start, self.end),
            View::Absolute => self.absolute(),
        }
    }

    /// As a segment of a path, which starts at 0 of its node.
    fn segment(&self, view: View) -> String {
        match view {
            View::Form => format!("{}:{}", self.number, self.end),
            View::Absolute => self.absolute(),
        }
    }
}

/// A span given out by a store.
#[derive(Debug, Clone, PartialEq, Eq)]
pub struct Given {
    pub place: Place,
    pub write: String,
    pub bytes: u64,
    pub dead: u64,
}

/// A cut: the head that stays, and the number that the rest took.
#[derive(Debug, Clone, Copy, PartialEq, Eq)]
pub struct Cut {
    pub head: Place,
    pub new: u32,
}

/// The answer to one call.
#[derive(Debug, Clone, PartialEq, Eq)]
pub enum Answer {
    Done,
    Path {
        segments: Vec<Place>,
        blocks: u32,
        cut: Option<Cut>,
    },
    Out(Vec<Given>),
    Bytes(u64),
    Writes(Vec<String>),
    Found {
        segments: Vec<Place>,
        spans: Vec<(usize, Place)>,
        blocks: Vec<u32>,
        bytes: Vec<u64>,
    },
    State(String),
    /// The call names blocks that this tree no longer has.
    Gone,
    Panic,
}

/// Whoever answers calls: the guarded Rust, the Rust as it is, and later the
/// project's own program.
pub trait Answers {
    fn call(&mut self, op: &crate::form::Op) -> Result<Answer, String>;
}

fn listed<T>(items: &[T], text: impl Fn(&T) -> String) -> String {
    items.iter().map(|i| format!(" {}", text(i))).collect()
}

fn cut_text(cut: &Cut, view: View) -> String {
    match view {
        View::Form => format!(" cut {} {} {}", cut.head.number, cut.head.end, cut.new),
        View::Absolute => format!(
            " cut {},last={}",
            cut.head.depth + cut.head.end,
            cut.head.last
        ),
    }
}

impl Answer {
    pub fn text(&self, view: View) -> String {
        let path = |segments: &[Place]| listed(segments, |p| p.segment(view));
        match self {
            Answer::Done => "ok".into(),
            Answer::Path {
                segments,
                blocks,
                cut,
            } => {
                let cut = cut.as_ref().map_or(String::new(), |c| cut_text(c, view));
                format!("ok path{} blocks {blocks}{cut}", path(segments))
            }
            Answer::Out(given) => {
                let one = |g: &Given| {
                    let (place, write) = (g.place.text(view), &g.write);
                    format!("{place},w={write},bytes={},dead={}", g.bytes, g.dead)
                };
                format!("ok out{}", listed(given, one))
            }
            Answer::Bytes(bytes) => format!("ok bytes {bytes}"),
            Answer::Writes(writes) => format!("ok writes{}", listed(writes, String::clone)),
            Answer::Found {
                segments,
                spans,
                blocks,
                bytes,
            } => format!(
                "ok path{} spans{} blocks{} bytes{}",
                path(segments),
                listed(spans, |(tier, p)| format!("{tier}:{}", p.text(view))),
                listed(blocks, u32::to_string),
                listed(bytes, u64::to_string)
            ),
            Answer::State(line) => line.clone(),
            Answer::Gone => "not in the tree".into(),
            Answer::Panic => "panic".into(),
        }
    }
}
