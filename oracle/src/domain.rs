//! Document 01's domain: which calls it does not refuse, and which ones lead
//! to a listed difference.

use crate::calls::cut_of;
use crate::driver::Oracle;
use crate::form::{Bytes, NodeSpan, Op, Policy};
use crate::kv_cache::radix::{peek, NodeId, Span};

pub const NODES: u32 = 256;
pub const WORDS: usize = 4096;
pub const LIST: usize = 1024;
pub const SPANS: usize = 64;
pub const TIERS: usize = 8;
pub const STORES: usize = 8;
pub const CAPACITY: u64 = 1_000_000;
pub const RECORDS: usize = 128;
pub const PINS: usize = 32;
pub const PINNED: u64 = 1_000_000;
pub const BYTES: u64 = 1 << 48;

/// Why document 01 refuses a call: its number, and in words.
#[derive(Debug, Clone, Copy, PartialEq, Eq)]
pub struct Refused {
    pub number: u8,
    pub why: &'static str,
}

type Allowed = Result<(), Refused>;

fn demand(holds: bool, number: u8, why: &'static str) -> Allowed {
    holds.then_some(()).ok_or(Refused { number, why })
}

fn check_setup(table: &[u64], stores: &[(u64, Policy)]) -> Allowed {
    demand(table.len() == 1025, 12, "a byte table has 1,025 entries")?;
    demand(table.is_sorted(), 12, "a byte table never falls")?;
    demand(table[1024] <= BYTES, 12, "no byte is above 2^48")?;
    demand((1..=STORES).contains(&stores.len()), 12, "1 to 8 stores")?;
    demand(
        stores.iter().all(|s| s.0 <= CAPACITY),
        12,
        "a capacity is at most 1,000,000",
    )
}

fn check_span(oracle: &Oracle, span: NodeSpan) -> Allowed {
    demand(span.node < oracle.nodes(), 4, "no such node")?;
    demand(span.start < span.end, 4, "a span is not empty")?;
    demand(
        span.end <= oracle.node_len(span.node),
        4,
        "a span ends in its node",
    )
}

fn records(oracle: &Oracle, store: usize) -> usize {
    peek::held(&oracle.radix, store).len()
}

fn room(oracle: &Oracle, store: usize, new: usize) -> Allowed {
    let used = records(oracle, store);
    demand(used + new <= RECORDS, 8, "more than 128 records of a store")
}

fn check_insert(oracle: &Oracle, hashes: &[u64]) -> Allowed {
    let matched = oracle.radix.resolve(hashes).blocks as usize;
    if matched == hashes.len() {
        return Ok(());
    }
    let cut = cut_of(&oracle.radix, hashes);
    let new = 1 + cut.is_some() as u32;
    demand(oracle.nodes() + new <= NODES, 6, "more than 255 nodes")?;
    let words = oracle.words + hashes.len() - matched;
    demand(words <= WORDS, 7, "more than 4,096 hash words")?;
    let Some((node, k)) = cut else { return Ok(()) };
    let stores = 0..oracle.stores.len();
    stores.clone().try_for_each(|store| {
        let held = peek::held_on(&oracle.radix, store, node);
        let across = held.iter().filter(|r| r.start < k && k < r.end);
        room(oracle, store, across.count())
    })?;
    stores.clone().try_for_each(|store| {
        let pins = peek::pins(&oracle.radix, store);
        let on = pins.iter().filter(|p| p.node == node);
        let across = on.filter(|p| p.start < k && k < p.end).count();
        let why = "more than 32 pins of a store";
        demand(pins.len() + across <= PINS, 9, why)
    })
}

fn check_bring(oracle: &Oracle, store: usize, span: NodeSpan) -> Allowed {
    if oracle.stores[store].0 == 0 {
        return Ok(());
    }
    let gaps = oracle.radix.store_missing(store, oracle.rust_span(span));
    room(oracle, store, gaps.len())
}

/// The new records that touching one span needs before anything is joined.
fn touch_need(oracle: &Oracle, store: usize, span: Span) -> usize {
    let held = peek::held_on(&oracle.radix, store, span.node);
    let over: Vec<_> = held
        .iter()
        .filter(|r| r.start < span.end && span.start < r.end)
        .collect();
    over.iter()
        .map(|r| (r.start < span.start) as usize + (span.end < r.end) as usize)
        .sum()
}

/// Exact for one span. Later spans of a list count 2 each, the most that one
/// can need, so a longer list near the limit may be taken for outside.
fn check_touch(oracle: &Oracle, store: usize, spans: &[NodeSpan]) -> Allowed {
    let Some(first) = spans.first() else {
        return Ok(());
    };
    if oracle.stores[store].1 == Policy::Fifo {
        return Ok(());
    }
    let need = touch_need(oracle, store, oracle.rust_span(*first)) + 2 * (spans.len() - 1);
    room(oracle, store, need)
}

fn check_remove(oracle: &Oracle, store: usize, span: NodeSpan) -> Allowed {
    let span = oracle.rust_span(span);
    let held = peek::held_on(&oracle.radix, store, span.node);
    let middle = held
        .iter()
        .filter(|r| r.start < span.start && span.end < r.end);
    room(oracle, store, middle.count())
}

fn check_pin(oracle: &Oracle, store: usize, span: NodeSpan) -> Allowed {
    let pins = peek::pins(&oracle.radix, store);
    let span = oracle.rust_span(span);
    let known = pins
        .iter()
        .any(|p| (p.node, p.start, p.end) == (span.node, span.start, span.end));
    demand(
        known || pins.len() < PINS,
        9,
        "more than 32 pins of a store",
    )?;
    let pinned = oracle.radix.store_pinned_blocks(store) as u64 + span.len() as u64;
    demand(pinned <= PINNED, 9, "more than 1,000,000 pinned blocks")
}

fn check_unpin(oracle: &Oracle, store: usize, span: NodeSpan) -> Allowed {
    let span = oracle.rust_span(span);
    let known = peek::pins(&oracle.radix, store)
        .iter()
        .any(|p| (p.node, p.start, p.end) == (span.node, span.start, span.end));
    demand(known, 10, "no pin of exactly that span")
}

fn check_on(oracle: &Oracle, op: &Op) -> Allowed {
    let tiers = match op {
        Op::Lookup { tiers, .. } => tiers.as_slice(),
        _ => &[],
    };
    for store in op.store().iter().chain(tiers) {
        demand(*store < oracle.stores.len(), 2, "no such store")?;
    }
    demand(op.hashes().len() <= LIST, 3, "more than 1,024 hashes")?;
    demand(op.spans().len() <= SPANS, 3, "more than 64 spans")?;
    demand(tiers.len() <= TIERS, 3, "more than 8 tiers")?;
    op.spans().iter().try_for_each(|s| check_span(oracle, *s))?;
    let finite = op.times().iter().all(|t| t.is_finite());
    demand(finite, 5, "a time is finite")?;
    match op {
        Op::Insert(hashes) => check_insert(oracle, hashes),
        Op::Bring { store, span, .. } => check_bring(oracle, *store, *span),
        Op::Touch { store, spans, .. } => check_touch(oracle, *store, spans),
        Op::Remove(store, span) => check_remove(oracle, *store, *span),
        Op::Pin(store, span) => check_pin(oracle, *store, *span),
        Op::Unpin(store, span) => check_unpin(oracle, *store, *span),
        _ => Ok(()),
    }
}

/// Says why document 01 would refuse a call; there is no oracle before the
/// first set-up.
pub fn check(oracle: Option<&Oracle>, op: &Op) -> Allowed {
    if let Op::Setup { bytes, stores } = op {
        return check_setup(&bytes.table(), stores);
    }
    let why = "no set-up came before this call";
    check_on(oracle.ok_or(Refused { number: 1, why })?, op)
}

/// The listed difference of a cut at `k`, if it leads to one.
fn cut_difference(oracle: &Oracle, node: NodeId, k: u32) -> Option<&'static str> {
    for store in 0..oracle.stores.len() {
        let mark = peek::mark(&oracle.radix, store, node);
        let pins = peek::pins(&oracle.radix, store);
        if mark.is_none() && pins.iter().any(|p| p.node == node && p.end > k) {
            return Some("pins-unheld");
        }
        let held = peek::held_on(&oracle.radix, store, node);
        if mark.unwrap_or(0) > 0 && held.iter().all(|r| r.start >= k) {
            return Some("mark-on-head");
        }
    }
    None
}

/// The name of the listed difference that a call leads to, if it leads to one.
pub fn listed_difference(oracle: Option<&Oracle>, op: &Op) -> Option<&'static str> {
    match op {
        Op::Setup {
            bytes: Bytes::Table(table),
            ..
        } => (*table.first()? != 0).then_some("bytes-at-0"),
        Op::Insert(hashes) => {
            let oracle = oracle?;
            let (node, k) = cut_of(&oracle.radix, hashes)?;
            cut_difference(oracle, node, k)
        }
        _ => None,
    }
}
