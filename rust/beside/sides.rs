//! One call on the library, and the same on the source. Answers are numbers,
//! so that both are compared by one `==`.

use crate::config::{EvictionPolicy, HbmEviction};
use crate::kv_cache::radix as source;
use crate::mix::{bytes, Call, STORES, TIERS};
use scorebeetle::{Radix, Span, TierSource};
use std::sync::Arc;

/// The store of the source that holds every block, so that no node goes.
const GUARD: usize = STORES.len();

pub trait Side {
    fn call(&mut self, call: &Call) -> Vec<u64>;
    /// What only the comparison needs, after a call.
    fn keep(&mut self, _call: &Call) {}
}

fn path(blocks: u32, segs: impl Iterator<Item = (u32, u32)>) -> Vec<u64> {
    let segs = segs.flat_map(|(node, len)| [node as u64, len as u64]);
    [blocks as u64].into_iter().chain(segs).collect()
}

fn found(
    mut numbers: Vec<u64>,
    spans: impl Iterator<Item = (usize, u32, u32, u32)>,
    blocks: Vec<u32>,
    bytes: Vec<u64>,
) -> Vec<u64> {
    let span = |(tier, node, start, end)| [tier as u64, node as u64, start as u64, end as u64];
    numbers.extend(spans.flat_map(span));
    numbers.extend(blocks.into_iter().map(u64::from));
    numbers.extend(bytes);
    numbers
}

pub struct Ours(pub Radix);

impl Ours {
    pub fn new() -> Self {
        Self(Radix::new(bytes, &STORES).unwrap())
    }

    /// Every counter of every store.
    #[allow(dead_code)]
    pub fn counters(&self) -> Vec<u64> {
        let r = &self.0;
        let of_store = |s| {
            [
                r.store_held_blocks(s).unwrap() as u64,
                r.store_capacity_blocks(s).unwrap() as u64,
                r.store_pinned_blocks(s).unwrap() as u64,
                r.store_available_for_stage(s).unwrap(),
                r.source_version(TierSource::Store(s)).unwrap(),
            ]
        };
        let stores = (0..STORES.len()).flat_map(of_store);
        stores.chain([r.pin_stalls()]).collect()
    }
}

fn ours_path(p: scorebeetle::Path) -> Vec<u64> {
    path(p.blocks, p.segs.iter().map(|s| (s.node, s.len)))
}

fn ours_out(out: Vec<scorebeetle::TierEvicted>) -> Vec<u64> {
    let one = |e: scorebeetle::TierEvicted| {
        let (node, start, end) = (e.span.node, e.span.start, e.span.end);
        let write = e.write_id.unwrap_or(0);
        [
            node as u64,
            start as u64,
            end as u64,
            write as u64,
            e.bytes,
            e.dead_bytes,
        ]
    };
    out.into_iter().flat_map(one).collect()
}

fn ours_found(l: scorebeetle::HbmLookup) -> Vec<u64> {
    let spans = l.tier_spans.iter();
    let spans = spans.map(|t| (t.tier, t.span.node, t.span.start, t.span.end));
    found(ours_path(l.path), spans, l.tier_blocks, l.tier_bytes)
}

impl Side for Ours {
    fn call(&mut self, call: &Call) -> Vec<u64> {
        let r = &mut self.0;
        match call {
            Call::SetUp => {
                r.set_up(bytes, &STORES).unwrap();
                Vec::new()
            }
            Call::Insert(list, _) => ours_path(r.insert(list).unwrap()),
            Call::Resolve(list) => ours_path(r.resolve(list).unwrap()),
            Call::Lookup(tiers, list) => ours_found(r.lookup(TIERS[*tiers], list).unwrap()),
            Call::StoreInsert(s, span, write, at) => {
                ours_out(r.store_insert(*s, *span, Some(*write), *at).unwrap())
            }
            Call::Promoted(s, spans, at) => vec![r.store_promoted(*s, spans, *at).unwrap()],
            Call::Touched(s, spans, at) => {
                r.store_touched(*s, spans, *at).unwrap();
                Vec::new()
            }
            Call::StoreRemove(s, span) => {
                let writes = r.store_remove(*s, *span).unwrap();
                writes
                    .into_iter()
                    .filter(|w| *w != 0)
                    .map(u64::from)
                    .collect()
            }
            Call::StoreExpire(s, now, seconds) => {
                ours_out(r.store_expire(*s, *now, *seconds).unwrap())
            }
            Call::Pin(s, span) => {
                r.pin_source(TierSource::Store(*s), *span).unwrap();
                Vec::new()
            }
            Call::Unpin(s, span) => {
                r.unpin_source(TierSource::Store(*s), *span).unwrap();
                Vec::new()
            }
        }
    }
}

pub struct Source(source::Radix);

impl Source {
    pub fn new() -> Self {
        let mut radix = source::Radix::new(1, Arc::new(bytes));
        for (worker, tiers) in TIERS.iter().enumerate() {
            radix.register_worker(worker, 0, HbmEviction::Lru {}, false);
            let tiers = tiers.iter().map(|s| source::RadixTier::Store(*s));
            radix.set_worker_lookup_tiers(worker, tiers.collect());
        }
        for (capacity, policy) in STORES {
            let policy = match policy {
                scorebeetle::EvictionPolicy::Fifo => EvictionPolicy::Fifo {},
                scorebeetle::EvictionPolicy::Refresh => EvictionPolicy::Lru {},
            };
            radix.add_store(capacity, policy);
        }
        radix.add_store(u32::MAX, EvictionPolicy::Fifo {});
        Self(radix)
    }

    #[allow(dead_code)]
    pub fn counters(&self) -> Vec<u64> {
        let r = &self.0;
        let of_store = |s| {
            [
                r.store_held_blocks(s) as u64,
                r.store_capacity_blocks(s) as u64,
                r.store_pinned_blocks(s) as u64,
                r.store_available_for_stage(s),
                r.source_version(source::TierSource::Store(s)),
            ]
        };
        let stores = (0..STORES.len()).flat_map(of_store);
        stores.chain([r.pin_stalls()]).collect()
    }
}

fn theirs(span: &Span) -> source::Span {
    source::Span {
        node: span.node,
        start: span.start,
        end: span.end,
    }
}

fn source_path(p: source::Path) -> Vec<u64> {
    path(p.blocks, p.segs.iter().map(|s| (s.node, s.len)))
}

fn source_out(out: Vec<source::TierEvicted>) -> Vec<u64> {
    let one = |e: source::TierEvicted| {
        let (node, start, end) = (e.span.node, e.span.start, e.span.end);
        let write: u64 = e.write_id.map_or(0, |w| w.parse().unwrap());
        [
            node as u64,
            start as u64,
            end as u64,
            write,
            e.bytes,
            e.dead_bytes,
        ]
    };
    out.into_iter().flat_map(one).collect()
}

fn source_found(l: source::HbmLookup) -> Vec<u64> {
    let spans = l.tier_spans.iter();
    let spans = spans.map(|t| (t.tier, t.span.node, t.span.start, t.span.end));
    found(source_path(l.path), spans, l.tier_blocks, l.tier_bytes)
}

fn written(write: u32) -> Option<String> {
    (write != 0).then(|| write.to_string())
}

impl Side for Source {
    fn call(&mut self, call: &Call) -> Vec<u64> {
        let r = &mut self.0;
        match call {
            Call::SetUp => {
                *self = Self::new();
                Vec::new()
            }
            Call::Insert(list, _) => source_path(r.insert(list)),
            Call::Resolve(list) => source_path(r.resolve(list)),
            Call::Lookup(worker, list) => source_found(r.lookup(*worker, list)),
            Call::StoreInsert(s, span, write, at) => {
                source_out(r.store_insert(*s, theirs(span), written(*write), *at))
            }
            Call::Promoted(s, spans, at) => {
                let spans: Vec<source::Span> = spans.iter().map(theirs).collect();
                vec![r.store_promoted(*s, &spans, *at)]
            }
            Call::Touched(s, spans, at) => {
                let spans: Vec<source::Span> = spans.iter().map(theirs).collect();
                r.store_touched(*s, &spans, *at);
                Vec::new()
            }
            Call::StoreRemove(s, span) => {
                let writes = r.store_remove(*s, theirs(span));
                writes.iter().map(|w| w.parse().unwrap()).collect()
            }
            Call::StoreExpire(s, now, seconds) => source_out(r.store_expire(*s, *now, *seconds)),
            Call::Pin(s, span) => {
                r.pin_source(source::TierSource::Store(*s), theirs(span));
                Vec::new()
            }
            Call::Unpin(s, span) => {
                r.unpin_source(source::TierSource::Store(*s), theirs(span));
                Vec::new()
            }
        }
    }

    /// A new leaf goes into the guard store too.
    fn keep(&mut self, call: &Call) {
        if let Call::Insert(_, Some((node, len))) = call {
            let whole = source::Span {
                node: *node,
                start: 0,
                end: *len,
            };
            self.0.store_insert(GUARD, whole, None, 0.0);
        }
    }
}
