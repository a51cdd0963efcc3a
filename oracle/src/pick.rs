//! The maker's choices: lists, spans, times, pins.

use crate::form::{NodeSpan, Op};
use crate::kv_cache::radix::peek;
use crate::maker::Maker;

/// Times that are far away, tiny, or not exact in decimals.
const ODD_TIMES: [f64; 10] = [
    0.0,
    -0.0,
    -5.5,
    0.30000000000000004,
    1e15,
    9007199254740993.0,
    1e300,
    -1.7e308,
    1.7e308,
    5e-324,
];

impl Maker {
    pub fn fresh_hash(&mut self) -> u64 {
        self.next_hash += 1;
        if self.wide {
            // Different for different counts, and below 2^63.
            return self.next_hash.wrapping_mul(0x9e37_79b9_7f4a_7c15) >> 1;
        }
        self.next_hash
    }

    pub fn fresh_hashes(&mut self, n: u32) -> Vec<u64> {
        (0..n).map(|_| self.fresh_hash()).collect()
    }

    /// A number of new blocks that fits behind `depth`.
    fn new_blocks(&mut self, depth: usize) -> u32 {
        let wish = match self.rng.below(40) {
            0 if !self.wide => 1024,
            1 => self.rng.between(60, 200),
            2..=17 => self.rng.between(8, 30),
            _ => self.rng.between(1, 9),
        };
        wish.min((1024 - depth) as u32)
    }

    pub fn store(&mut self) -> usize {
        let stores = self.oracle().stores.len() as u32;
        self.rng.below(stores) as usize
    }

    /// A store, more often one that holds something.
    fn holding_store(&mut self) -> usize {
        let radix = &self.oracle().radix;
        let stores = 0..self.oracle().stores.len();
        let holding: Vec<usize> = stores.filter(|s| radix.store_held(*s) > 0).collect();
        if holding.is_empty() || self.rng.one_in(6) {
            return self.store();
        }
        *self.rng.pick(&holding)
    }

    /// A node: one of which the store holds something, one below the root,
    /// or any.
    fn node_for(&mut self, store: usize) -> Option<u32> {
        let nodes = self.oracle().nodes();
        if nodes < 2 {
            return None;
        }
        let way = self.rng.below(6);
        let oracle = self.oracle();
        let near: Vec<u32> = match way {
            0..=2 => peek::held(&oracle.radix, store)
                .iter()
                .map(|r| oracle.number(r.node))
                .collect(),
            3 => (1..nodes)
                .filter(|n| peek::depth(&oracle.radix, oracle.rust_node(*n)) == 0)
                .collect(),
            _ => Vec::new(),
        };
        if near.is_empty() {
            return Some(self.rng.between(1, nodes - 1));
        }
        Some(*self.rng.pick(&near))
    }

    fn node(&mut self) -> Option<u32> {
        let store = self.holding_store();
        self.node_for(store)
    }

    /// A place to cut a node: at or inside a range, a pin or a mark, or
    /// anywhere.
    fn cut_at(&mut self, node: u32) -> u32 {
        let len = self.oracle().node_len(node);
        let rust = self.oracle().rust_node(node);
        let store = self.store();
        let radix = &self.oracle().radix;
        let mut at: Vec<u32> = peek::mark(radix, store, rust).into_iter().collect();
        for r in peek::held_on(radix, store, rust) {
            at.extend([r.start, r.end, (r.start + r.end) / 2]);
        }
        for p in peek::pins(radix, store).iter().filter(|p| p.node == rust) {
            at.extend([p.start, p.end, (p.start + p.end) / 2]);
        }
        at.retain(|k| 0 < *k && *k < len);
        if at.is_empty() || self.rng.one_in(4) {
            return self.rng.between(1, len);
        }
        *self.rng.pick(&at)
    }

    /// The hashes from the root to a place inside a node.
    fn prefix(&mut self, node: u32, blocks: u32) -> Vec<u64> {
        let mut path = self.oracle().root_path(node);
        let len = self.oracle().node_len(node) as usize;
        path.truncate(path.len() - len + blocks as usize);
        path
    }

    /// A list that agrees with a root path and then goes its own way.
    pub fn insert_list(&mut self) -> Vec<u64> {
        let way = self.rng.below(20);
        let Some(node) = self.node() else {
            let n = self.new_blocks(0);
            return self.fresh_hashes(n);
        };
        let mut list = match way {
            0 => Vec::new(),
            1 | 2 => return self.known_list(),
            3..=7 => self.oracle().root_path(node),
            _ => {
                let k = self.cut_at(node);
                self.prefix(node, k)
            }
        };
        let n = self.new_blocks(list.len());
        list.extend(self.fresh_hashes(n));
        list
    }

    /// A root path or a part of one, sometimes with new hashes behind it.
    pub fn known_list(&mut self) -> Vec<u64> {
        let Some(node) = self.node() else {
            return Vec::new();
        };
        if self.rng.one_in(20) {
            return Vec::new();
        }
        let len = self.oracle().node_len(node);
        let k = if self.rng.one_in(2) {
            len
        } else {
            self.rng.between(1, len)
        };
        let mut list = self.prefix(node, k);
        if self.rng.one_in(3) {
            let n = self.rng.between(1, 5).min((1024 - list.len()) as u32);
            list.extend(self.fresh_hashes(n));
        }
        list
    }

    /// A list over few hashes, or a root path with some places changed, so
    /// that halving meets places that agree after one that does not.
    pub fn unchained_list(&mut self) -> Vec<u64> {
        let few = *self.rng.pick(&[2, 3, 9]);
        let Some(node) = self.node().filter(|_| !self.rng.one_in(4)) else {
            let n = *self.rng.pick(&[0, 1, 2, 3, 7, 8, 16, 33, 40, 90]);
            return (0..n).map(|_| self.rng.below(few) as u64).collect();
        };
        let mut list = self.oracle().root_path(node);
        for _ in 0..self.rng.below(4) {
            let at = self.rng.below(list.len() as u32) as usize;
            list[at] = *self.rng.pick(&[0, 1, 2, 7, u64::MAX]);
        }
        let keep = self.rng.between(1, list.len() as u32) as usize;
        if self.rng.one_in(3) {
            list.truncate(keep);
        }
        for _ in 0..self.rng.below(6).min((1024 - list.len()) as u32) {
            list.push(self.rng.below(few) as u64);
        }
        list
    }

    /// A span by what is held of the node: a range, one that misses it by a
    /// block, its middle, its head, or from inside one to inside the next.
    fn span_by_held(&mut self, held: &[peek::Held]) -> (u32, u32) {
        let i = self.rng.below(held.len() as u32) as usize;
        let (start, end) = (held[i].start, held[i].end);
        match self.rng.below(6) {
            0 => (start, end),
            1 => {
                let start = (start + self.rng.below(3)).saturating_sub(1);
                (start, end + self.rng.below(3) - 1)
            }
            2 | 3 => {
                let third = (end - start).div_ceil(3);
                (start + third, (end - third).max(start + third + 1))
            }
            4 => (start, (start + end).div_ceil(2)),
            _ => {
                let next = held.get(i + 1).unwrap_or(&held[i]);
                ((start + end) / 2, (next.start + next.end).div_ceil(2))
            }
        }
    }

    /// A span of a node: whole, one block, at one end, by what is held, or
    /// any.
    fn span_of(&mut self, store: usize, node: u32) -> NodeSpan {
        let len = self.oracle().node_len(node);
        let rust = self.oracle().rust_node(node);
        let held = peek::held_on(&self.oracle().radix, store, rust);
        let (start, end) = match self.rng.below(13) {
            0 | 1 => (0, len),
            2 => {
                let at = self.rng.below(len);
                (at, at + 1)
            }
            3 | 4 => (0, self.rng.between(1, len)),
            5 => (self.rng.below(len), len),
            6..=11 if !held.is_empty() => self.span_by_held(&held),
            _ => {
                let start = self.rng.below(len);
                (start, self.rng.between(start + 1, len))
            }
        };
        let end = end.clamp(1, len);
        let start = start.min(end - 1);
        NodeSpan { node, start, end }
    }

    fn store_and_span(&mut self) -> (usize, NodeSpan) {
        let store = self.store();
        self.span_in(store)
    }

    fn span_in(&mut self, store: usize) -> (usize, NodeSpan) {
        let node = self.node_for(store).unwrap_or(0);
        if node == 0 {
            // Outside the domain, so another call is tried.
            let (start, end) = (0, 1);
            return (store, NodeSpan { node, start, end });
        }
        (store, self.span_of(store, node))
    }

    /// The next moment; now and then an odd time that the clock ignores.
    fn time(&mut self) -> f64 {
        if self.rng.one_in(12) {
            return *self.rng.pick(&ODD_TIMES);
        }
        self.clock += *self.rng.pick(&[0.0, 0.0, 1.0, 1.0, 0.5, 0.1, 0.25, 3.0]);
        self.clock
    }

    fn write(&mut self) -> u32 {
        *self.rng.pick(&[0, 0, 0, 1, 2, 3, 7, 7, u32::MAX, 1000])
    }

    pub fn bring(&mut self) -> Op {
        let (store, span) = self.store_and_span();
        Op::Bring {
            store,
            span,
            time: self.time(),
            write: self.write(),
        }
    }

    pub fn touch(&mut self) -> Op {
        let store = self.holding_store();
        let count = match self.rng.below(30) {
            0 => 0,
            1 => 64,
            2..=10 => self.rng.between(2, 5),
            _ => 1,
        };
        let mut spans = Vec::new();
        for _ in 0..count {
            let node = self.node_for(store).unwrap_or(0);
            if node > 0 {
                spans.push(self.span_of(store, node));
            }
        }
        Op::Touch {
            store,
            time: self.time(),
            counted: !self.rng.one_in(3),
            spans,
        }
    }

    pub fn remove(&mut self) -> Op {
        let store = self.holding_store();
        let (store, span) = self.span_in(store);
        Op::Remove(store, span)
    }

    /// An age of exactly the seconds or one step to either side of it, for
    /// the first range or a later one; sometimes any age.
    pub fn expire(&mut self) -> Op {
        let store = self.holding_store();
        let held = peek::held(&self.oracle().radix, store);
        let mut now = self.time();
        let mut seconds = *self.rng.pick(&[0.0, -0.0, 1.0, 2.5, -1.0, 10.0, 1e308]);
        if !held.is_empty() && !self.rng.one_in(6) {
            let among = held.len().min(4) as u32;
            let touched = held[self.rng.below(among) as usize].time;
            match self.rng.below(3) {
                0 => now = touched,
                1 => now = touched + *self.rng.pick(&[0.1, 0.7, 1.0, 3.0, 1e9]),
                _ => {}
            }
            seconds = now - touched;
            if !seconds.is_finite() {
                seconds = f64::MAX;
            }
            match self.rng.below(7) {
                0 | 1 => seconds = seconds.next_down(),
                2 | 3 => seconds = seconds.next_up(),
                4 => now = now.next_up(),
                5 => now = now.next_down(),
                _ => {}
            }
        }
        Op::Expire {
            store,
            now,
            seconds,
        }
    }

    /// A span, or one that is pinned already.
    pub fn pin(&mut self) -> Op {
        let (store, span) = self.store_and_span();
        if self.rng.one_in(3) {
            if let Op::Unpin(store, span) = self.unpin() {
                return Op::Pin(store, span);
            }
        }
        Op::Pin(store, span)
    }

    pub fn unpin(&mut self) -> Op {
        let store = self.store();
        let pins = peek::pins(&self.oracle().radix, store);
        if pins.is_empty() {
            let (store, span) = self.store_and_span();
            return Op::Pin(store, span);
        }
        let pin = *self.rng.pick(&pins);
        let (start, end) = (pin.start, pin.end);
        let node = self.oracle().number(pin.node);
        Op::Unpin(store, NodeSpan { node, start, end })
    }

    pub fn lookup(&mut self) -> Op {
        let count = *self.rng.pick(&[0, 1, 1, 2, 2, 2, 3, 4, 8]);
        Op::Lookup {
            tiers: (0..count).map(|_| self.holding_store()).collect(),
            hashes: self.known_list(),
        }
    }
}
