//! Slips that the Rust is made to have, around its own functions. Only runs
//! that have to notice a slip call these.

use super::{NodeId, Radix, Span, StoreId, TierEvicted, TierRange, TierRangeId};

/// An entry of a store's order.
type Entry = (u64, u64, TierRangeId);

/// A way to give out at most so many blocks of a range.
type Give = fn(&mut Radix, StoreId, Entry, u32) -> Option<TierEvicted>;

/// A range's node and its place among the node's ranges.
fn find(radix: &Radix, s: StoreId, id: TierRangeId) -> Option<(NodeId, usize)> {
    let &(node, _) = radix.stores[s].locations.get(&id)?;
    let tier = radix.nodes[node as usize].tiers.get(&s)?;
    let at = tier.ranges.iter().position(|r| r.id == id)?;
    Some((node, at))
}

/// A range with its node.
fn range(radix: &Radix, s: StoreId, id: TierRangeId) -> Option<(NodeId, TierRange)> {
    let (node, at) = find(radix, s, id)?;
    let tier = &radix.nodes[node as usize].tiers[&s];
    Some((node, tier.ranges[at].clone()))
}

fn first_unpinned(radix: &Radix, s: StoreId) -> Option<Entry> {
    let order = &radix.stores[s].order;
    order.iter().copied().find(|e| {
        let (node, r) = range(radix, s, e.2).expect("a range of the order");
        !radix.store_range_pinned(s, node, r.start, r.end)
    })
}

/// `store_insert` with another way to give out.
pub fn bring(
    radix: &mut Radix,
    s: StoreId,
    span: Span,
    write: Option<String>,
    now: f64,
    give: Give,
) -> Vec<TierEvicted> {
    let capacity = radix.stores[s].capacity;
    if capacity == 0 {
        return radix.store_insert(s, span, write, now);
    }
    radix.stores[s].capacity = u32::MAX;
    radix.store_insert(s, span, write, now);
    radix.stores[s].capacity = capacity;
    let mut out = Vec::new();
    while radix.stores[s].held > capacity {
        let Some(entry) = first_unpinned(radix, s) else {
            radix.pin_stalls += 1;
            break;
        };
        let excess = radix.stores[s].held - capacity;
        out.extend(give(radix, s, entry, excess));
    }
    out
}

/// Counts the bytes of a span that is another than the Rust gave out.
fn count(radix: &Radix, gone: &mut TierEvicted, mark: u32) {
    let dead = Span {
        start: gone.span.start.max(mark),
        ..gone.span
    };
    let bytes = |span: Span| match span.is_empty() {
        true => 0,
        false => radix.span_bytes(span),
    };
    (gone.bytes, gone.dead_bytes) = (bytes(gone.span), bytes(dead));
}

/// Gives out the head of a range.
pub fn head(radix: &mut Radix, s: StoreId, entry: Entry, excess: u32) -> Option<TierEvicted> {
    let mut gone = radix.store_evict_entry(s, entry, excess)?;
    let Some((node, at)) = find(radix, s, entry.2) else {
        return Some(gone);
    };
    let tier = radix.nodes[node as usize].tiers.get_mut(&s)?;
    let (rest, mark) = (&mut tier.ranges[at], tier.read_upto);
    let blocks = gone.span.len();
    gone.span.start = rest.start;
    gone.span.end = rest.start + blocks;
    (rest.start, rest.end) = (rest.start + blocks, rest.end + blocks);
    let place = (node, rest.start);
    radix.stores[s].locations.insert(entry.2, place);
    count(radix, &mut gone, mark);
    Some(gone)
}

/// Rounds the end of the span down to an even block. An odd last block has
/// left the count then, and is held still.
pub fn rounded(radix: &mut Radix, s: StoreId, entry: Entry, excess: u32) -> Option<TierEvicted> {
    let (node, old) = range(radix, s, entry.2)?;
    let mark = radix.nodes[node as usize].tiers[&s].read_upto;
    let mut gone = radix.store_evict_entry(s, entry, excess)?;
    if gone.span.end % 2 == 0 {
        return Some(gone);
    }
    gone.span.end -= 1;
    count(radix, &mut gone, mark);
    let (id, start) = (radix.new_tier_range_id(), gone.span.end);
    let block = TierRange { id, start, ..old };
    radix.stores[s].order.insert((block.key, block.seq, id));
    radix.stores[s].locations.insert(id, (node, start));
    let tier = radix.nodes[node as usize].tiers.entry(s).or_default();
    tier.read_upto = mark;
    let at = tier.ranges.partition_point(|r| r.start < start);
    tier.ranges.insert(at, block);
    (!gone.span.is_empty()).then_some(gone)
}

/// `store_expire` that passes over what is pinned.
pub fn expire_unpinned(radix: &mut Radix, s: StoreId, now: f64, seconds: f64) -> Vec<TierEvicted> {
    let mut out = Vec::new();
    while let Some(entry) = first_unpinned(radix, s) {
        let (_, r) = range(radix, s, entry.2).expect("a range of the order");
        if now - r.touched <= seconds {
            break;
        }
        out.extend(radix.store_evict_entry(s, entry, u32::MAX));
    }
    out
}

/// After a cut at `k`: the head of each range that it halved gets the new id
/// and the tail the old one. Ids from `fresh` are new.
pub fn new_id_on_heads(radix: &mut Radix, head: NodeId, k: u32, tail: NodeId, fresh: TierRangeId) {
    for s in 0..radix.stores.len() {
        let first = |radix: &Radix| {
            let r = radix.nodes[tail as usize].tiers.get(&s)?.ranges.first()?;
            (r.start == 0 && r.id >= fresh).then_some(r.id)
        };
        let Some(new) = first(radix) else { continue };
        let tier = radix.nodes[head as usize].tiers.get_mut(&s);
        let rest = tier.and_then(|t| t.ranges.last_mut());
        let rest = rest.filter(|r| r.end == k).expect("a halved range's head");
        let old = std::mem::replace(&mut rest.id, new);
        let place = (head, rest.start);
        radix.nodes[tail as usize].tiers.get_mut(&s).unwrap().ranges[0].id = old;
        radix.stores[s].locations.insert(new, place);
        radix.stores[s].locations.insert(old, (tail, 0));
    }
}
