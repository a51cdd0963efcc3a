//! Reads what radix.rs keeps private. Changes nothing.

use super::{NodeId, Radix, StoreId};

/// A range that a store holds.
#[derive(Debug, Clone)]
pub struct Held {
    pub node: NodeId,
    pub start: u32,
    pub end: u32,
    pub id: u64,
    pub stamp: u64,
    pub time: f64,
    pub write: Option<String>,
}

/// An entry of a store's pins.
#[derive(Debug, Clone, Copy)]
pub struct Pin {
    pub node: NodeId,
    pub start: u32,
    pub end: u32,
    pub count: u32,
}

/// The ranges of a store on one node, by start.
pub fn held_on(radix: &Radix, store: StoreId, node: NodeId) -> Vec<Held> {
    let tier = radix.nodes[node as usize].tiers.get(&store);
    tier.map_or(Vec::new(), |t| {
        t.ranges
            .iter()
            .map(|r| Held {
                node,
                start: r.start,
                end: r.end,
                id: r.id,
                stamp: r.seq,
                time: r.touched,
                write: r.arriving.clone(),
            })
            .collect()
    })
}

/// All ranges of a store, first by stamp, then by id.
pub fn held(radix: &Radix, store: StoreId) -> Vec<Held> {
    let mut all: Vec<Held> = (0..radix.nodes.len() as NodeId)
        .flat_map(|n| held_on(radix, store, n))
        .collect();
    all.sort_by_key(|r| (r.stamp, r.id));
    all
}

/// All pins of a store, by node, start and end.
pub fn pins(radix: &Radix, store: StoreId) -> Vec<Pin> {
    radix.stores[store]
        .pins
        .iter()
        .map(|(&(node, start, end), &count)| Pin {
            node,
            start,
            end,
            count,
        })
        .collect()
}

/// The read mark of a store on a node; none where the store has no entry.
pub fn mark(radix: &Radix, store: StoreId, node: NodeId) -> Option<u32> {
    radix.nodes[node as usize]
        .tiers
        .get(&store)
        .map(|t| t.read_upto)
}

pub fn stamp(radix: &Radix, store: StoreId) -> u64 {
    radix.stores[store].seq
}

/// The id that the next new range gets.
pub fn next_id(radix: &Radix) -> u64 {
    radix.next_tier_range_id
}

pub fn hashes(radix: &Radix, node: NodeId) -> &[u64] {
    &radix.nodes[node as usize].hashes
}

pub fn depth(radix: &Radix, node: NodeId) -> u32 {
    radix.nodes[node as usize].depth
}

/// The children in the order in which they were added.
pub fn children(radix: &Radix, node: NodeId) -> Vec<NodeId> {
    radix.nodes[node as usize]
        .children
        .iter()
        .map(|&(_, id)| id)
        .collect()
}

/// How many numbers were ever given, the root's too.
pub fn numbers(radix: &Radix) -> u32 {
    radix.nodes.len() as u32
}

/// Whether a number was ever taken back, by a prune or a merge.
pub fn gave_back(radix: &Radix) -> bool {
    !radix.free_ids.is_empty() || radix.nodes.iter().any(|n| !n.alive)
}

/// The hashes from the root to the end of a node.
pub fn root_path(radix: &Radix, node: NodeId) -> Vec<u64> {
    let mut chain = vec![node];
    while let Some(parent) = radix.nodes[*chain.last().unwrap() as usize].parent {
        chain.push(parent);
    }
    chain
        .iter()
        .rev()
        .flat_map(|&n| hashes(radix, n).iter().copied())
        .collect()
}
