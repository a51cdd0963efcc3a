//! How each call and the whole-state test grow from an empty to a full state:
//! nodes of 16 blocks, and eight stores that hold up to 128 of them whole.

use crate::config::{EvictionPolicy as Theirs, HbmEviction};
use crate::kv_cache::radix as source;
use crate::ticks;
use scorebeetle::{EvictionPolicy, Radix, Span, TierSource};
use std::hint::black_box;
use std::sync::Arc;

const STORES: usize = 8;
const RUNS: usize = 2_000;
const LEVELS: [u32; 5] = [1, 32, 64, 128, 255];

/// The hashes of node `k`: 16, and 32 of the last, so that 255 nodes have all
/// 4,096 words.
fn list(k: u32) -> Vec<u64> {
    let count = if k == 255 { 32 } else { 16 };
    let hash = |i: u64| {
        ((k as u64) << 20 | i)
            .wrapping_mul(0x9e37_79b9_7f4a_7c15)
            .rotate_left(32)
    };
    (0..count).map(hash).collect()
}

fn whole(k: u32) -> Span {
    Span {
        node: k,
        start: 0,
        end: list(k).len() as u32,
    }
}

fn theirs(span: Span) -> source::Span {
    source::Span {
        node: span.node,
        start: span.start,
        end: span.end,
    }
}

fn library(nodes: u32) -> Radix {
    let stores = [(1_000_000, EvictionPolicy::Refresh); STORES];
    let mut radix = Radix::new(|k| k as u64, &stores).unwrap();
    for k in 1..=nodes {
        radix.insert(&list(k)).unwrap();
    }
    for s in 0..STORES {
        for k in 1..=nodes.min(128) {
            radix.store_insert(s, whole(k), None, k as f64).unwrap();
        }
        for k in 1..=nodes.min(32) {
            radix.pin_source(TierSource::Store(s), whole(k)).unwrap();
        }
    }
    radix
}

fn rust(nodes: u32) -> source::Radix {
    let mut radix = source::Radix::new(1, Arc::new(|k| k as u64));
    radix.register_worker(0, 0, HbmEviction::Lru {}, false);
    radix.set_worker_lookup_tiers(0, vec![source::RadixTier::Store(0)]);
    (0..=STORES).for_each(|_| {
        radix.add_store(1_000_000, Theirs::Lru {});
    });
    for k in 1..=nodes {
        radix.insert(&list(k));
        radix.store_insert(STORES, theirs(whole(k)), None, 0.0);
    }
    for s in 0..STORES {
        for k in 1..=nodes.min(128) {
            radix.store_insert(s, theirs(whole(k)), None, k as f64);
        }
        for k in 1..=nodes.min(32) {
            radix.pin_source(source::TierSource::Store(s), theirs(whole(k)));
        }
    }
    radix
}

/// The shortest of many times.
fn shortest(mut once: impl FnMut()) -> u64 {
    let one = |_| {
        let from = ticks();
        once();
        ticks() - from
    };
    (0..RUNS).map(one).min().unwrap()
}

pub fn run(tick: f64, mean: f64) {
    println!("| Nodes, ranges a store | resolve | insert | lookup | remove and bring | touch | pin and unpin | expire | whole test |");
    println!("|---|---|---|---|---|---|---|---|---|");
    let mut full = 0.0;
    for nodes in LEVELS {
        let (mut ours, mut rust) = (library(nodes), rust(nodes));
        assert!(ours.sound_state());
        let ns = |x: u64| x as f64 * tick;
        let last = list(nodes);
        let span = whole(nodes.min(128));
        let pinned = whole(1);
        let store = TierSource::Store(0);
        let their_store = source::TierSource::Store(0);
        let pairs = [
            (
                shortest(|| drop(black_box(rust.resolve(&last)))),
                shortest(|| drop(black_box(ours.resolve(&last)))),
            ),
            (
                shortest(|| drop(black_box(rust.insert(&last)))),
                shortest(|| drop(black_box(ours.insert(&last)))),
            ),
            (
                shortest(|| drop(black_box(rust.lookup(0, &last)))),
                shortest(|| drop(black_box(ours.lookup(&[0], &last)))),
            ),
            (
                shortest(|| {
                    rust.store_remove(0, theirs(span));
                    rust.store_insert(0, theirs(span), None, 1.0);
                }),
                shortest(|| {
                    ours.store_remove(0, span).unwrap();
                    ours.store_insert(0, span, None, 1.0).unwrap();
                }),
            ),
            (
                shortest(|| rust.store_touched(0, &[theirs(span)], 2.0)),
                shortest(|| ours.store_touched(0, &[span], 2.0).unwrap()),
            ),
            (
                shortest(|| {
                    rust.pin_source(their_store, theirs(pinned));
                    rust.unpin_source(their_store, theirs(pinned));
                }),
                shortest(|| {
                    ours.pin_source(store, pinned).unwrap();
                    ours.unpin_source(store, pinned).unwrap();
                }),
            ),
            (
                shortest(|| drop(rust.store_expire(0, 0.0, 1e9))),
                shortest(|| drop(ours.store_expire(0, 0.0, 1e9))),
            ),
        ];
        full = ns(shortest(|| assert!(ours.sound_state())));
        let cells: Vec<String> = pairs
            .iter()
            .map(|(a, b)| format!("{:.0} / {:.0}", ns(*a), ns(*b)))
            .collect();
        println!(
            "| {nodes}, {} | {} | {full:.0} |",
            nodes.min(128),
            cells.join(" | ")
        );
    }
    println!();
    println!(
        "whole test at full size: {full:.0} ns, {:.1} of the source's mean call ({mean:.0} ns)",
        full / mean
    );
}
