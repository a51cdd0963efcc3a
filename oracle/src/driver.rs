//! The guarded Rust: every block is also held in one more store that never
//! fills, and a node with exactly one child gets a second one before a
//! removal, so that no node dies and none merges.

use crate::absolute::Blocks;
use crate::answer::{Answer, Answers};
use crate::calls::{cut_of, fresh, rest_of, Caller};
use crate::domain::{self, Refused};
use crate::form::{NodeSpan, Op, Policy};
use crate::kv_cache::radix::{peek, NodeId, Radix, Span};
use crate::slips::Slip;
use crate::state;
use std::collections::{BTreeMap, BTreeSet};

/// What a set-up began: the tree, its stores and the table of numbers.
pub struct Oracle {
    pub radix: Radix,
    pub stores: Vec<(u64, Policy)>,
    pub table: Vec<u64>,
    /// Hash words used by document 01's count.
    pub words: usize,
    /// The Rust's node by document 01's number; the root's is 0.
    rust_of: Vec<NodeId>,
    number_of: BTreeMap<NodeId, u32>,
    next_helper: u64,
    /// A slip that the Rust is made to have.
    slip: Option<Slip>,
}

impl Oracle {
    fn new(table: Vec<u64>, stores: &[(u64, Policy)], slip: Option<Slip>) -> Self {
        let mut all = stores.to_vec();
        all.push((u32::MAX as u64, Policy::Fifo));
        Self {
            radix: fresh(table.clone(), &all),
            stores: stores.to_vec(),
            table,
            words: 0,
            rust_of: vec![0],
            number_of: BTreeMap::from([(0, 0)]),
            next_helper: u64::MAX,
            slip,
        }
    }

    /// The nodes in use by document 01's count, the root too.
    pub fn nodes(&self) -> u32 {
        self.rust_of.len() as u32
    }

    pub fn rust_node(&self, number: u32) -> NodeId {
        self.rust_of[number as usize]
    }

    pub fn number(&self, node: NodeId) -> u32 {
        self.number_of.get(&node).copied().unwrap_or(0)
    }

    pub fn node_len(&self, number: u32) -> u32 {
        peek::hashes(&self.radix, self.rust_node(number)).len() as u32
    }

    /// The hashes from the root to the end of a node.
    pub fn root_path(&self, number: u32) -> Vec<u64> {
        peek::root_path(&self.radix, self.rust_node(number))
    }

    pub fn rust_span(&self, span: NodeSpan) -> Span {
        Span {
            node: self.rust_node(span.node),
            start: span.start,
            end: span.end,
        }
    }

    /// Holds a whole node in the store that never fills.
    fn hold(&mut self, node: NodeId) {
        let whole = Span {
            node,
            start: 0,
            end: peek::hashes(&self.radix, node).len() as u32,
        };
        let extra = self.stores.len();
        let out = self.radix.store_insert(extra, whole, None, 0.0);
        assert!(out.is_empty(), "the store that never fills gave out");
    }

    fn name(&mut self, node: NodeId) {
        self.number_of.insert(node, self.rust_of.len() as u32);
        self.rust_of.push(node);
    }

    fn insert(&mut self, hashes: &[u64]) -> Answer {
        let before = self.radix.resolve(hashes).blocks as usize;
        let cut = cut_of(&self.radix, hashes);
        let path = match self.slip {
            Some(slip) => slip.insert(&mut self.radix, hashes, cut),
            None => self.radix.insert(hashes),
        };
        if before < hashes.len() {
            let leaf = path.segs.last().expect("an inserted path has a leaf").node;
            if let Some((node, _)) = cut {
                self.name(rest_of(&self.radix, node));
            }
            self.name(leaf);
            self.hold(leaf);
            self.words += hashes.len() - before;
        }
        self.caller().inserted(&path, cut)
    }

    fn caller(&mut self) -> Caller<'_, impl Fn(NodeId) -> u32 + '_> {
        let number_of = &self.number_of;
        Caller {
            radix: &mut self.radix,
            number: move |n| number_of.get(&n).copied().unwrap_or(0),
        }
    }

    /// Every call but set-up, insert, removal and state.
    fn other(&mut self, op: &Op) -> Answer {
        let spans = op.spans();
        let spans: Vec<Span> = spans.iter().map(|s| self.rust_span(*s)).collect();
        match self.slip {
            Some(slip) => slip.call(&mut self.caller(), op, &spans),
            None => self.caller().call(op, &spans),
        }
    }

    /// Gives a node with exactly one child a second one.
    fn second_child(&mut self, node: NodeId, avoid: &BTreeSet<u64>) {
        if peek::children(&self.radix, node).len() != 1 {
            return;
        }
        while avoid.contains(&self.next_helper) {
            self.next_helper -= 1;
        }
        let mut path = peek::root_path(&self.radix, node);
        path.push(self.next_helper);
        self.next_helper -= 1;
        let leaf = self.radix.insert(&path).segs.last().unwrap().node;
        assert_eq!(peek::children(&self.radix, node)[1], leaf);
        self.hold(leaf);
    }

    fn remove(&mut self, op: &Op, span: NodeSpan, avoid: &BTreeSet<u64>) -> Result<Answer, String> {
        self.second_child(self.rust_node(span.node), avoid);
        let span = self.rust_span(span);
        let answer = self.caller().call(op, &[span]);
        if peek::gave_back(&self.radix) {
            return Err("a removal took a node out of the tree or merged one".into());
        }
        Ok(answer)
    }

    fn call(&mut self, op: &Op, avoid: &BTreeSet<u64>) -> Result<Answer, String> {
        match op {
            Op::Insert(hashes) => Ok(self.insert(hashes)),
            Op::Remove(_, span) => self.remove(op, *span, avoid),
            Op::State => Ok(Answer::State(state::absolute(&self.radix, &self.stores))),
            _ => Ok(self.other(op)),
        }
    }
}

impl Blocks for Oracle {
    fn depth(&self, node: u32) -> Option<u32> {
        let node = *self.rust_of.get(node as usize)?;
        Some(peek::depth(&self.radix, node))
    }

    fn hash(&self, node: u32, at: u32) -> Option<u64> {
        let node = *self.rust_of.get(node as usize)?;
        let hashes = peek::hashes(&self.radix, node);
        hashes.get(at as usize).copied()
    }
}

/// The guarded Rust as one who answers calls.
#[derive(Default)]
pub struct Driver {
    /// Hashes that no added second child may have.
    avoid: BTreeSet<u64>,
    oracle: Option<Oracle>,
    slip: Option<Slip>,
}

impl Driver {
    pub fn new(avoid: BTreeSet<u64>) -> Self {
        Self {
            avoid,
            oracle: None,
            slip: None,
        }
    }

    /// A driver for calls that are known beforehand.
    pub fn for_calls(ops: &[Op]) -> Self {
        Self::new(ops.iter().flat_map(|op| op.hashes().to_vec()).collect())
    }

    /// The same with a slip planted.
    pub fn with(self, slip: Option<Slip>) -> Self {
        Self { slip, ..self }
    }

    /// Says why a call is outside document 01's domain.
    pub fn check(&self, op: &Op) -> Result<(), Refused> {
        domain::check(self.oracle.as_ref(), op)
    }

    /// Answers a call that was checked.
    pub fn checked(&mut self, op: &Op) -> Result<Answer, String> {
        if let Op::Setup { bytes, stores } = op {
            self.oracle = Some(Oracle::new(bytes.table(), stores, self.slip));
            return Ok(Answer::Done);
        }
        let oracle = self.oracle.as_mut().expect("a set-up came before");
        oracle.call(op, &self.avoid)
    }
}

/// One who answers calls beside a tree with document 01's numbers.
pub trait Numbered: Answers {
    fn oracle(&self) -> Result<&Oracle, String>;
}

impl Numbered for Driver {
    fn oracle(&self) -> Result<&Oracle, String> {
        let none = || "no set-up came before this call".to_string();
        self.oracle.as_ref().ok_or_else(none)
    }
}

impl Answers for Driver {
    /// Answers a call of document 01's domain; the error says why a call is
    /// outside it.
    fn call(&mut self, op: &Op) -> Result<Answer, String> {
        self.check(op).map_err(|refused| refused.why.to_string())?;
        self.checked(op)
    }
}
