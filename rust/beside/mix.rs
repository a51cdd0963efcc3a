//! A mixed replay: chained lists of some 30 hashes, two stores, a set-up now
//! and then. The library runs along, so that every call is accepted and spans
//! are chosen from the tree; calls on which the source is known to differ
//! (docs/DIFFERENCES.md) are not made.

mod held;

use crate::rng::Rng;
use held::Held;
use scorebeetle::{EvictionPolicy, Path, Radix, Seg, Span, TierSource};
use std::collections::BTreeSet;

/// Calls from one set-up to the next.
pub const PER_SET_UP: usize = 800;

pub const STORES: [(u32, EvictionPolicy); 2] =
    [(300, EvictionPolicy::Refresh), (700, EvictionPolicy::Fifo)];

/// The lists of stores that lookups go through. The source has a worker for
/// each.
pub const TIERS: [&[usize]; 3] = [&[0, 1], &[1, 0], &[1]];

/// The byte table.
pub fn bytes(block: u32) -> u64 {
    100 * block as u64
}

#[derive(Debug, Clone)]
pub enum Call {
    SetUp,
    /// The leaf that it adds, with its length.
    Insert(Vec<u64>, Option<(u32, u32)>),
    Resolve(Vec<u64>),
    /// Through one of `TIERS`.
    Lookup(usize, Vec<u64>),
    StoreInsert(usize, Span, u32, f64),
    Promoted(usize, Vec<Span>, f64),
    Touched(usize, Vec<Span>, f64),
    StoreRemove(usize, Span),
    StoreExpire(usize, f64, f64),
    Pin(usize, Span),
    Unpin(usize, Span),
}

pub const KINDS: [&str; 11] = [
    "set-up",
    "insert",
    "resolve",
    "lookup",
    "store_insert",
    "store_promoted",
    "store_touched",
    "store_remove",
    "store_expire",
    "pin_source",
    "unpin_source",
];

impl Call {
    pub fn kind(&self) -> usize {
        match self {
            Call::SetUp => 0,
            Call::Insert(..) => 1,
            Call::Resolve(..) => 2,
            Call::Lookup(..) => 3,
            Call::StoreInsert(..) => 4,
            Call::Promoted(..) => 5,
            Call::Touched(..) => 6,
            Call::StoreRemove(..) => 7,
            Call::StoreExpire(..) => 8,
            Call::Pin(..) => 9,
            Call::Unpin(..) => 10,
        }
    }
}

struct Maker {
    rng: Rng,
    radix: Radix,
    calls: Vec<Call>,
    lists: Vec<Vec<u64>>,
    /// The children of each node.
    children: Vec<BTreeSet<u32>>,
    held: Held,
    pins: Vec<(usize, Span)>,
    clock: f64,
    next_hash: u64,
}

pub fn calls(seed: u64, count: usize) -> Vec<Call> {
    let mut maker = Maker {
        rng: Rng::new(seed),
        radix: Radix::new(bytes, &STORES).unwrap(),
        calls: Vec::new(),
        lists: Vec::new(),
        children: Vec::new(),
        held: Held::default(),
        pins: Vec::new(),
        clock: 0.0,
        next_hash: 1,
    };
    while maker.calls.len() < count {
        if maker.calls.len() % PER_SET_UP == 0 {
            maker.set_up();
        } else {
            maker.one();
        }
    }
    maker.calls
}

impl Maker {
    fn set_up(&mut self) {
        self.radix = Radix::new(bytes, &STORES).unwrap();
        self.lists.clear();
        self.children = vec![BTreeSet::new(); 256];
        self.held = Held::default();
        self.pins.clear();
        self.calls.push(Call::SetUp);
    }

    fn one(&mut self) {
        self.clock += 1.0;
        if self.lists.len() < 4 {
            return self.insert();
        }
        match self.rng.below(100) {
            0..=9 => self.insert(),
            10..=26 => self.resolve(),
            27..=36 => self.lookup(),
            37..=59 => self.store_insert(),
            60..=65 => self.promoted(),
            66..=69 => self.touched(),
            70..=77 => self.store_remove(),
            78..=82 => self.store_expire(),
            83..=91 => self.pin(),
            _ => self.unpin(),
        }
    }

    fn list(&mut self) -> Vec<u64> {
        self.rng.pick(&self.lists).clone()
    }

    /// A list that follows a known one for a while, then goes on by itself.
    fn fresh_list(&mut self) -> Vec<u64> {
        let mut list = Vec::new();
        if !self.lists.is_empty() && !self.rng.one_in(8) {
            list = self.list();
            list.truncate(self.rng.between(0, list.len() as u32) as usize);
        }
        let length = self.rng.between(20, 40).max(list.len() as u32 + 1);
        while list.len() < length as usize {
            self.next_hash += 1;
            list.push(self.next_hash.wrapping_mul(0x9e37_79b9_7f4a_7c15));
        }
        list
    }

    fn insert(&mut self) {
        let list = self.fresh_list();
        let before = self.radix.resolve(&list).unwrap();
        if let Some(last) = before.segs.last() {
            // A cut that would move pins, or a mark to where nothing is held,
            // is one on which the source differs.
            if self.pins.iter().any(|(_, p)| p.node == last.node)
                || self.held.marked_below(last.node, last.len)
            {
                return;
            }
        }
        let Ok((path, cut)) = self.radix.insert_cut(&list) else {
            return;
        };
        if let Some(cut) = cut {
            self.held.cut(cut);
            self.children[cut.new as usize] = std::mem::take(&mut self.children[cut.node as usize]);
            self.children[cut.node as usize].insert(cut.new);
        }
        for pair in path.segs.windows(2) {
            self.children[pair[0].node as usize].insert(pair[1].node);
        }
        let leaf = path.segs.last().unwrap();
        let added = before.blocks < path.blocks;
        self.lists.push(list.clone());
        self.calls
            .push(Call::Insert(list, added.then_some((leaf.node, leaf.len))));
    }

    /// A known list, or one that goes on past the tree.
    fn asked(&mut self) -> Vec<u64> {
        if self.rng.one_in(3) {
            self.fresh_list()
        } else {
            self.list()
        }
    }

    fn resolve(&mut self) {
        let list = self.asked();
        self.calls.push(Call::Resolve(list));
    }

    fn lookup(&mut self) {
        let tiers = self.rng.below(TIERS.len() as u32) as usize;
        let list = self.asked();
        self.calls.push(Call::Lookup(tiers, list));
    }

    /// A span of a known path: a whole segment more often than a part.
    fn span(&mut self) -> Span {
        let list = self.list();
        let path: Path = self.radix.resolve(&list).unwrap();
        let seg = *self.rng.pick(&path.segs);
        if self.rng.one_in(2) {
            return Span {
                node: seg.node,
                start: 0,
                end: seg.len,
            };
        }
        let start = self.rng.below(seg.len);
        Span {
            node: seg.node,
            start,
            end: self.rng.between(start + 1, seg.len),
        }
    }

    fn store(&mut self) -> usize {
        self.rng.below(2) as usize
    }

    fn store_insert(&mut self) {
        let (s, span, write) = (self.store(), self.span(), self.rng.below(3));
        let at = self.clock;
        if let Ok(out) = self.radix.store_insert(s, span, Some(write), at) {
            self.held.add(s, span);
            out.iter().for_each(|e| self.held.remove(s, e.span));
            self.calls.push(Call::StoreInsert(s, span, write, at));
        }
    }

    /// A known path's segments, as a replay uses what it found, or one span.
    fn used(&mut self) -> Vec<Span> {
        if self.rng.one_in(2) {
            return vec![self.span()];
        }
        let list = self.list();
        let path = self.radix.resolve(&list).unwrap();
        let whole = |s: &Seg| Span {
            node: s.node,
            start: 0,
            end: s.len,
        };
        path.segs.iter().map(whole).collect()
    }

    fn promoted(&mut self) {
        let (s, spans) = (self.store(), self.used());
        if self.radix.store_promoted(s, &spans, self.clock).is_ok() {
            spans.iter().for_each(|span| self.held.mark(s, *span));
            self.calls.push(Call::Promoted(s, spans, self.clock));
        }
    }

    fn touched(&mut self) {
        let (s, spans) = (self.store(), self.used());
        if self.radix.store_touched(s, &spans, self.clock).is_ok() {
            self.calls.push(Call::Touched(s, spans, self.clock));
        }
    }

    fn store_remove(&mut self) {
        let (s, span) = (self.store(), self.span());
        // The source merges a node that has one child.
        if self.children[span.node as usize].len() == 1 {
            return;
        }
        if self.radix.store_remove(s, span).is_ok() {
            self.held.remove(s, span);
            self.calls.push(Call::StoreRemove(s, span));
        }
    }

    fn store_expire(&mut self) {
        let s = self.store();
        let seconds = self.rng.between(100, 500) as f64;
        let out = self.radix.store_expire(s, self.clock, seconds).unwrap();
        out.iter().for_each(|e| self.held.remove(s, e.span));
        self.calls.push(Call::StoreExpire(s, self.clock, seconds));
    }

    fn pin(&mut self) {
        let (s, span) = (self.store(), self.span());
        if self.pins.len() < 12 && self.radix.pin_source(TierSource::Store(s), span).is_ok() {
            self.pins.push((s, span));
            self.calls.push(Call::Pin(s, span));
        }
    }

    fn unpin(&mut self) {
        if self.pins.is_empty() {
            return;
        }
        let at = self.rng.below(self.pins.len() as u32) as usize;
        let (s, span) = self.pins.swap_remove(at);
        self.radix.unpin_source(TierSource::Store(s), span).unwrap();
        self.calls.push(Call::Unpin(s, span));
    }
}
