//! The Rust with any call, also one that document 01 refuses: no guards, no
//! tests, and a panic is an answer. Node numbers are the Rust's own.

use crate::answer::{Answer, Answers};
use crate::calls::{cut_of, fresh, Caller};
use crate::driver::{Driver, Numbered, Oracle};
use crate::form::{Op, Policy};
use crate::kv_cache::radix::{Radix, Span};
use crate::state;
use std::panic::{catch_unwind, AssertUnwindSafe};

pub struct Raw {
    guarded: Driver,
    radix: Option<Radix>,
    stores: Vec<(u64, Policy)>,
}

impl Raw {
    pub fn for_calls(ops: &[Op]) -> Self {
        Self {
            guarded: Driver::for_calls(ops),
            radix: None,
            stores: Vec::new(),
        }
    }

    fn on_tree(&mut self, op: &Op) -> Answer {
        let radix = self.radix.as_mut().expect("a set-up comes first");
        if let Op::State = op {
            return Answer::State(state::absolute(radix, &self.stores));
        }
        let mut caller = Caller {
            radix,
            number: |n| n,
        };
        if let Op::Insert(hashes) = op {
            let cut = cut_of(caller.radix, hashes);
            let path = caller.radix.insert(hashes);
            return caller.inserted(&path, cut);
        }
        let own = |s: &crate::form::NodeSpan| Span {
            node: s.node,
            start: s.start,
            end: s.end,
        };
        let spans: Vec<Span> = op.spans().iter().map(own).collect();
        caller.call(op, &spans)
    }
}

impl Answers for Raw {
    fn call(&mut self, op: &Op) -> Result<Answer, String> {
        // Where document 01 refuses, its tree stays as it was.
        let _refused = self.guarded.call(op);
        if let Op::Setup { bytes, stores } = op {
            self.stores = stores.clone();
            self.radix = Some(fresh(bytes.table(), stores));
            return Ok(Answer::Done);
        }
        std::panic::set_hook(Box::new(|_| {}));
        let answer = catch_unwind(AssertUnwindSafe(|| self.on_tree(op)));
        let _ = std::panic::take_hook();
        Ok(answer.unwrap_or(Answer::Panic))
    }
}

impl Numbered for Raw {
    fn oracle(&self) -> Result<&Oracle, String> {
        self.guarded.oracle()
    }
}
