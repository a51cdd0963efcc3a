//! What a call answers in, and how it is read.

use crate::pools::zeros;
use crate::types::*;

/// 01's sizes of the answer lists.
const PATH: usize = 255;
const OUT: usize = 128;
const TIER_SPANS: usize = 1024;
/// The values of an answer: at most a path, a count and 8 + 8 sums.
pub const ANSWER: usize = 19;

#[derive(Clone, PartialEq)]
pub struct Lists {
    pub path_node: [usize; PATH],
    pub path_len: [usize; PATH],
    pub out_node: [usize; OUT],
    pub out_start: [usize; OUT],
    pub out_end: [usize; OUT],
    pub out_write: [u32; OUT],
    pub out_bytes: [u64; OUT],
    pub out_dead: [u64; OUT],
    pub writes: [u32; OUT],
    pub span_tier: [usize; TIER_SPANS],
    pub span_node: [usize; TIER_SPANS],
    pub span_start: [usize; TIER_SPANS],
    pub span_end: [usize; TIER_SPANS],
    pub answer: [u64; ANSWER],
}

impl Lists {
    pub fn empty() -> Box<Self> {
        // SAFETY: every field is an array of numbers.
        unsafe { zeros() }
    }

    /// A path: how many segments, and how many blocks they cover.
    pub fn path(&self) -> Path {
        let segs = self.answer[0] as usize;
        let seg = |(&node, &len): (&usize, &usize)| Seg {
            node: node as u32,
            len: len as u32,
        };
        let lists = self.path_node[..segs].iter().zip(&self.path_len);
        Path {
            segs: lists.map(seg).collect(),
            blocks: self.answer[1] as u32,
        }
    }

    /// An insert's cut, behind its path.
    pub fn cut(&self) -> Option<Cut> {
        let a = &self.answer;
        (a[2] != 0).then_some(Cut {
            node: a[3] as u32,
            at: a[4] as u32,
            new: a[5] as u32,
        })
    }

    pub fn given_out(&self) -> Vec<TierEvicted> {
        let one = |i: usize| TierEvicted {
            span: Span {
                node: self.out_node[i] as u32,
                start: self.out_start[i] as u32,
                end: self.out_end[i] as u32,
            },
            write_id: (self.out_write[i] != 0).then_some(self.out_write[i]),
            dead_bytes: self.out_dead[i],
            bytes: self.out_bytes[i],
        };
        (0..self.answer[0] as usize).map(one).collect()
    }

    /// The blocks that a bring-in or a removal counts, behind the number of its
    /// spans or writes.
    pub fn blocks(&self) -> u32 {
        self.answer[1] as u32
    }

    pub fn writes(&self) -> Vec<u32> {
        self.writes[..self.answer[0] as usize].to_vec()
    }

    /// A lookup through these tiers: its path, how many tier spans, then the
    /// sums of blocks from place 3 and of bytes from place 11.
    pub fn looked_up(&self, tiers: &[StoreId]) -> HbmLookup {
        let one = |i: usize| TierSpan {
            tier: self.span_tier[i],
            span: Span {
                node: self.span_node[i] as u32,
                start: self.span_start[i] as u32,
                end: self.span_end[i] as u32,
            },
            source: TierSource::Store(tiers[self.span_tier[i]]),
        };
        let (blocks, bytes) = (&self.answer[3..11], &self.answer[11..19]);
        HbmLookup {
            path: self.path(),
            tier_blocks: blocks[..tiers.len()].iter().map(|b| *b as u32).collect(),
            tier_bytes: bytes[..tiers.len()].to_vec(),
            tier_spans: (0..self.answer[2] as usize).map(one).collect(),
        }
    }
}

/// The spans of a touch, a list for each number of a span.
#[derive(Default)]
pub struct Spans {
    pub node: Vec<usize>,
    pub start: Vec<usize>,
    pub end: Vec<usize>,
}

impl Spans {
    pub fn read(&mut self, spans: &[Span]) {
        self.node.clear();
        self.start.clear();
        self.end.clear();
        self.node.extend(spans.iter().map(|s| s.node as usize));
        self.start.extend(spans.iter().map(|s| s.start as usize));
        self.end.extend(spans.iter().map(|s| s.end as usize));
    }
}
