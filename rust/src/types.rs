//! What goes into the calls and comes out of them, under the source's names.

pub type NodeId = u32;
pub type StoreId = usize;

/// A range of one node's blocks, `[start, end)`.
#[derive(Debug, Clone, Copy, PartialEq, Eq)]
pub struct Span {
    pub node: NodeId,
    pub start: u32,
    pub end: u32,
}

/// One node of a path and how much of it the path covers.
#[derive(Debug, Clone, Copy, PartialEq, Eq)]
pub struct Seg {
    pub node: NodeId,
    pub len: u32,
}

#[derive(Debug, Clone, Default, PartialEq, Eq)]
pub struct Path {
    pub segs: Vec<Seg>,
    pub blocks: u32,
}

/// An insert's cut: the node, the blocks that it keeps, and the node that took
/// the rest.
#[derive(Debug, Clone, Copy, PartialEq, Eq)]
pub struct Cut {
    pub node: NodeId,
    pub at: u32,
    pub new: NodeId,
}

/// A span that a store gave out. A write is a number from 1.
#[derive(Debug, Clone, Copy, PartialEq, Eq)]
pub struct TierEvicted {
    pub span: Span,
    pub write_id: Option<u32>,
    pub dead_bytes: u64,
    pub bytes: u64,
}

/// A contiguous held span and the store that serves it; `tier` is the store's
/// place in the list that was handed in.
#[derive(Debug, Clone, Copy, PartialEq, Eq)]
pub struct TierSpan {
    pub tier: usize,
    pub span: Span,
    pub source: TierSource,
}

/// What a list of stores holds of a list of hashes, from its first block on.
/// The source's fields on a worker's own memory are left out.
#[derive(Debug, Clone, Default, PartialEq, Eq)]
pub struct HbmLookup {
    pub path: Path,
    pub tier_blocks: Vec<u32>,
    pub tier_bytes: Vec<u64>,
    pub tier_spans: Vec<TierSpan>,
}

impl HbmLookup {
    pub fn cached(&self) -> u32 {
        self.tier_blocks.iter().sum()
    }
}

#[derive(Debug, Clone, Copy, PartialEq, Eq)]
pub enum EvictionPolicy {
    Fifo,
    /// Every policy that refreshes on use.
    Refresh,
}

#[derive(Debug, Clone, Copy, PartialEq, Eq, Hash)]
pub enum TierSource {
    Store(StoreId),
}
