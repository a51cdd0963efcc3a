//! One call on the Rust, and its answer by places.

use crate::answer::{Answer, Cut, Given, Place};
use crate::config::{EvictionPolicy, HbmEviction};
use crate::form::{Op, Policy};
use crate::kv_cache::radix::{
    peek, HbmLookup, NodeId, Path, Radix, RadixTier, Seg, Span, TierEvicted, TierSource,
};
use std::sync::Arc;

/// The worker that looks up; it has no memory of its own.
const WORKER: usize = 0;

/// A fresh tree with the stores of a set-up.
pub fn fresh(table: Vec<u64>, stores: &[(u64, Policy)]) -> Radix {
    let mut radix = Radix::new(1, Arc::new(move |k| table[k as usize]));
    radix.register_worker(WORKER, 0, HbmEviction::Lru {}, false);
    for (capacity, policy) in stores {
        let policy = match policy {
            Policy::Fifo => EvictionPolicy::Fifo {},
            Policy::Refresh => EvictionPolicy::Lru {},
        };
        radix.add_store(*capacity as u32, policy);
    }
    radix
}

pub fn written(write: u32) -> Option<String> {
    (write != 0).then(|| write.to_string())
}

/// Where an insert will cut: the node and the blocks that stay.
pub fn cut_of(radix: &Radix, hashes: &[u64]) -> Option<(NodeId, u32)> {
    let path = radix.resolve(hashes);
    let last = path.segs.last()?;
    let whole = peek::hashes(radix, last.node).len() as u32;
    let cuts = (path.blocks as usize) < hashes.len() && last.len < whole;
    cuts.then_some((last.node, last.len))
}

/// The node that took the rest of a cut node: its first child.
pub fn rest_of(radix: &Radix, node: NodeId) -> NodeId {
    peek::children(radix, node)[0]
}

/// Runs calls on one tree and names nodes by `number`.
pub struct Caller<'a, N: Fn(NodeId) -> u32> {
    pub radix: &'a mut Radix,
    pub number: N,
}

impl<N: Fn(NodeId) -> u32> Caller<'_, N> {
    fn place(&self, span: Span) -> Place {
        let hashes = peek::hashes(self.radix, span.node);
        let last = (span.end as usize)
            .checked_sub(1)
            .and_then(|i| hashes.get(i));
        Place {
            number: (self.number)(span.node),
            start: span.start,
            end: span.end,
            depth: peek::depth(self.radix, span.node),
            last: last.copied().unwrap_or(0),
        }
    }

    fn segments(&self, path: &Path) -> Vec<Place> {
        let whole = |s: &Seg| Span {
            node: s.node,
            start: 0,
            end: s.len,
        };
        path.segs.iter().map(|s| self.place(whole(s))).collect()
    }

    /// An inserted path with its cut, once the new nodes have numbers.
    pub fn inserted(&self, path: &Path, cut: Option<(NodeId, u32)>) -> Answer {
        Answer::Path {
            segments: self.segments(path),
            blocks: path.blocks,
            cut: cut.map(|(node, k)| Cut {
                head: self.place(Span {
                    node,
                    start: 0,
                    end: k,
                }),
                new: (self.number)(rest_of(self.radix, node)),
            }),
        }
    }

    pub fn given(&self, out: Vec<TierEvicted>) -> Answer {
        let one = |e: TierEvicted| Given {
            place: self.place(e.span),
            write: e.write_id.unwrap_or("0".into()),
            bytes: e.bytes,
            dead: e.dead_bytes,
        };
        Answer::Out(out.into_iter().map(one).collect())
    }

    pub fn look(&mut self, tiers: &[usize], hashes: &[u64]) -> HbmLookup {
        let tiers = tiers.iter().map(|&s| RadixTier::Store(s)).collect();
        self.radix.set_worker_lookup_tiers(WORKER, tiers);
        self.radix.lookup(WORKER, hashes)
    }

    pub fn found(&self, found: HbmLookup) -> Answer {
        let spans = found.tier_spans.iter();
        Answer::Found {
            segments: self.segments(&found.path),
            spans: spans.map(|t| (t.tier, self.place(t.span))).collect(),
            blocks: found.tier_blocks,
            bytes: found.tier_bytes,
        }
    }

    fn touch(&mut self, store: usize, spans: &[Span], time: f64, counted: bool) -> Answer {
        if counted {
            return Answer::Bytes(self.radix.store_promoted(store, spans, time));
        }
        self.radix.store_touched(store, spans, time);
        Answer::Bytes(0)
    }

    fn pin(&mut self, store: usize, span: Span) -> Answer {
        self.radix.pin_source(TierSource::Store(store), span);
        Answer::Done
    }

    fn unpin(&mut self, store: usize, span: Span) -> Answer {
        let out = self.radix.unpin_source(TierSource::Store(store), span);
        assert!(out.is_empty(), "the Rust gave something out at an unpin");
        Answer::Done
    }

    pub fn expire(&mut self, store: usize, now: f64, seconds: f64) -> Answer {
        let out = self.radix.store_expire(store, now, seconds);
        self.given(out)
    }

    fn bring(&mut self, store: usize, span: Span, time: f64, write: u32) -> Answer {
        let out = self.radix.store_insert(store, span, written(write), time);
        self.given(out)
    }

    /// Every call but set-up, insert and state. `spans` are the line's spans
    /// on this tree.
    pub fn call(&mut self, op: &Op, spans: &[Span]) -> Answer {
        match op {
            Op::Resolve(hashes) => {
                let path = self.radix.resolve(hashes);
                self.inserted(&path, None)
            }
            Op::Bring {
                store, time, write, ..
            } => self.bring(*store, spans[0], *time, *write),
            Op::Touch {
                store,
                time,
                counted,
                ..
            } => self.touch(*store, spans, *time, *counted),
            Op::Remove(store, _) => Answer::Writes(self.radix.store_remove(*store, spans[0])),
            Op::Expire {
                store,
                now,
                seconds,
            } => self.expire(*store, *now, *seconds),
            Op::Pin(store, _) => self.pin(*store, spans[0]),
            Op::Unpin(store, _) => self.unpin(*store, spans[0]),
            Op::Lookup { tiers, hashes } => {
                let found = self.look(tiers, hashes);
                self.found(found)
            }
            Op::Setup { .. } | Op::Insert(_) | Op::State => unreachable!("not a call on a tree"),
        }
    }
}
