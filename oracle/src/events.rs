//! A call as the oracle answered it, and what happened in it.

use crate::answer::{Answer, View};
use crate::driver::Oracle;
use crate::form::Op;
use crate::kv_cache::radix::peek;
use crate::state;

/// The things that are counted.
pub const EVENTS: [&str; 6] = [
    "evictions",
    "cuts",
    "joins",
    "stalls",
    "expiries",
    "counted touches",
];

/// How often each of them happened.
pub type Events = [u64; 6];

/// A call with its answer and the state after it, both by absolute positions.
#[derive(Debug)]
pub struct Seen {
    pub op: Op,
    pub answer: String,
    pub state: String,
    pub events: Events,
}

/// What has to be known before a call to tell what happened in it.
pub struct Before {
    ids: u64,
    records: usize,
    stalls: u64,
}

fn records(oracle: &Oracle, op: &Op) -> usize {
    let store = op.store();
    store.map_or(0, |s| peek::held(&oracle.radix, s).len())
}

/// Spans that a store gave out because it was full; one of capacity 0 keeps
/// nothing that it could give out.
fn evictions(oracle: &Oracle, op: &Op, answer: &Answer) -> u64 {
    match (op, answer) {
        (Op::Bring { store, .. }, Answer::Out(out)) if oracle.stores[*store].0 > 0 => {
            out.len() as u64
        }
        _ => 0,
    }
}

fn expiries(op: &Op, answer: &Answer) -> u64 {
    match (op, answer) {
        (Op::Expire { .. }, Answer::Out(out)) => out.len() as u64,
        _ => 0,
    }
}

impl Before {
    pub fn of(oracle: Option<&Oracle>, op: &Op) -> Self {
        let number = |f: fn(&Oracle) -> u64| oracle.map_or(0, f);
        let set_up = matches!(op, Op::Setup { .. });
        Self {
            ids: number(|o| peek::next_id(&o.radix)),
            records: oracle.map_or(0, |o| records(o, op)),
            stalls: if set_up {
                0
            } else {
                number(|o| o.radix.pin_stalls())
            },
        }
    }

    /// Each piece of a touch takes an id, and each join a record.
    fn joins(&self, oracle: &Oracle, op: &Op) -> u64 {
        if !matches!(op, Op::Touch { .. }) {
            return 0;
        }
        let pieces = peek::next_id(&oracle.radix) - self.ids;
        self.records as u64 + pieces - records(oracle, op) as u64
    }

    pub fn seen(&self, oracle: &Oracle, op: &Op, answer: Answer) -> Seen {
        let cut = matches!(answer, Answer::Path { cut: Some(_), .. });
        let counted = matches!(op, Op::Touch { counted: true, .. });
        let read = counted && answer != Answer::Bytes(0);
        Seen {
            op: op.clone(),
            answer: answer.text(View::Absolute),
            state: state::absolute(&oracle.radix, &oracle.stores),
            events: [
                evictions(oracle, op, &answer),
                cut as u64,
                self.joins(oracle, op),
                oracle.radix.pin_stalls() - self.stalls,
                expiries(op, &answer),
                read as u64,
            ],
        }
    }
}
