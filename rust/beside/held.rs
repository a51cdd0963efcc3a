//! What the stores of a mixed replay hold, and which nodes have a read mark.

use scorebeetle::{Cut, Span};
use std::collections::{BTreeMap, BTreeSet};

/// The held blocks of a node in a store, and whether some were read.
#[derive(Default)]
struct Node {
    blocks: BTreeSet<u32>,
    marked: bool,
}

#[derive(Default)]
pub struct Held(BTreeMap<(usize, u32), Node>);

impl Held {
    pub fn add(&mut self, s: usize, span: Span) {
        let node = self.0.entry((s, span.node)).or_default();
        node.blocks.extend(span.start..span.end);
    }

    /// With a node's last block its mark goes.
    pub fn remove(&mut self, s: usize, span: Span) {
        if let Some(node) = self.0.get_mut(&(s, span.node)) {
            node.blocks.retain(|b| *b < span.start || span.end <= *b);
            if node.blocks.is_empty() {
                self.0.remove(&(s, span.node));
            }
        }
    }

    pub fn mark(&mut self, s: usize, span: Span) {
        if let Some(node) = self.0.get_mut(&(s, span.node)) {
            node.marked |= node.blocks.range(span.start..span.end).next().is_some();
        }
    }

    /// Whether a store has a mark on the node and holds none of its blocks
    /// before `at`.
    pub fn marked_below(&self, node: u32, at: u32) -> bool {
        let of_node = self.0.iter().filter(|(key, _)| key.1 == node);
        of_node
            .map(|(_, n)| n)
            .any(|n| n.marked && n.blocks.range(..at).next().is_none())
    }

    /// The new node takes the blocks from the cut on.
    pub fn cut(&mut self, cut: Cut) {
        let of_node = self.0.keys().filter(|key| key.1 == cut.node);
        let stores: Vec<usize> = of_node.map(|key| key.0).collect();
        for s in stores {
            let old = self.0.remove(&(s, cut.node)).unwrap();
            for block in old.blocks {
                let (node, block) = if block < cut.at {
                    (cut.node, block)
                } else {
                    (cut.new, block - cut.at)
                };
                let part = self.0.entry((s, node)).or_default();
                part.blocks.insert(block);
                part.marked = old.marked;
            }
        }
    }
}
