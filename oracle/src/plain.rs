//! The Rust as it is: no further store, no second child. Lines name nodes by
//! document 01's numbers; a guarded tree beside it says which blocks those
//! are, and the spans are looked up here by their hashes.

use crate::answer::{Answer, Answers};
use crate::calls::{cut_of, fresh, Caller};
use crate::driver::{Driver, Numbered, Oracle};
use crate::form::{NodeSpan, Op, Policy};
use crate::kv_cache::radix::{peek, Radix, Span};
use crate::state;

pub struct Plain {
    guarded: Driver,
    radix: Option<Radix>,
    stores: Vec<(u64, Policy)>,
}

/// The blocks of a span on another tree, where one node has them all.
fn same_blocks(oracle: &Oracle, span: NodeSpan, radix: &Radix) -> Option<Span> {
    let depth = peek::depth(&oracle.radix, oracle.rust_node(span.node));
    let (from, upto) = (depth + span.start, depth + span.end);
    let path = radix.resolve(&oracle.root_path(span.node)[..upto as usize]);
    let node = path.segs.last()?.node;
    let here = peek::depth(radix, node);
    (path.blocks == upto && here <= from).then(|| Span {
        node,
        start: from - here,
        end: upto - here,
    })
}

impl Plain {
    pub fn for_calls(ops: &[Op]) -> Self {
        Self {
            guarded: Driver::for_calls(ops),
            radix: None,
            stores: Vec::new(),
        }
    }

    fn on_tree(&mut self, op: &Op) -> Result<Answer, String> {
        let oracle = self.guarded.oracle()?;
        let radix = self.radix.as_mut().expect("set up beside the guarded tree");
        if let Op::State = op {
            return Ok(Answer::State(state::absolute(radix, &self.stores)));
        }
        let mut spans = Vec::new();
        for span in op.spans() {
            match same_blocks(oracle, span, radix) {
                Some(found) => spans.push(found),
                None => return Ok(Answer::Gone),
            }
        }
        let mut caller = Caller {
            radix,
            number: |_| 0,
        };
        if let Op::Insert(hashes) = op {
            let cut = cut_of(caller.radix, hashes);
            let path = caller.radix.insert(hashes);
            return Ok(caller.inserted(&path, cut));
        }
        Ok(caller.call(op, &spans))
    }
}

impl Answers for Plain {
    fn call(&mut self, op: &Op) -> Result<Answer, String> {
        self.guarded.call(op)?;
        if let Op::Setup { bytes, stores } = op {
            self.stores = stores.clone();
            self.radix = Some(fresh(bytes.table(), stores));
            return Ok(Answer::Done);
        }
        self.on_tree(op)
    }
}

impl Numbered for Plain {
    fn oracle(&self) -> Result<&Oracle, String> {
        self.guarded.oracle()
    }
}
