//! The calls of a run beside the Rust: made while the oracle answers them,
//! and written to the program, each with a `state` line behind it.

use crate::domain::STORES;
use crate::events::{Events, Seen};
use crate::form::{Bytes, NodeSpan, Op, Policy};
use crate::limits;
use crate::maker::{self, Call, Maker};
use crate::slips::Slip;
use crate::state;
use std::collections::BTreeMap;
use std::io::{BufWriter, Write};
use std::process::ChildStdin;
use std::sync::mpsc::Sender;

/// What an episode is after; those that stand more than once are for things
/// that happen seldom.
const KINDS: [&str; 17] = [
    "mixed", "mixed", "mixed", "touch", "touch", "remove", "expire", "expire", "trim", "pins",
    "pins", "cuts", "cuts", "lookup", "tiers", "tiers", "tree",
];

/// Few nodes and at least two stores, so that stores often hold parts of the
/// same node.
const TIERS: [(Call, u32); 3] = [(Call::Insert, 1), (Call::Bring, 12), (Call::Lookup, 12)];

/// The capacity of the store that `TIERS` has more.
const ROOMY: u64 = 333;

/// Beside single blocks of a long list, until the records are full.
const FULL: [(Call, u32); 3] = [(Call::Bring, 1), (Call::Touch, 2), (Call::Remove, 1)];
const LONG: u32 = 600;

fn mix(kind: &str) -> &'static [(Call, u32)] {
    match kind {
        "tiers" => &TIERS,
        _ => maker::mix(kind).expect("a kind"),
    }
}

/// One episode in so many fills pools and lists to their limits instead, and
/// one fills the records of its stores.
const LIMITS_ONE_IN: u32 = 40;

const LIMITS: [&str; 7] = [
    "limits-nodes",
    "limits-words",
    "limits-records",
    "limits-pins",
    "limits-pinned",
    "limits-lookup",
    "limits-lists",
];

/// How many calls an episode has at most, its set-up too.
const LENGTHS: [usize; 12] = [100, 100, 140, 140, 140, 200, 200, 300, 300, 500, 800, 3000];

/// In an episode, one refusal in so many is put to the program.
const PATIENCE: [u32; 4] = [1, 3, 10, 100];

/// One set-up in so many is first tried with a byte table that does not
/// begin with 0.
const ODD_TABLE_ONE_IN: u32 = 20;

/// The refusals that a run meets: no room for nodes, words, records or pins.
const NO_ROOM: std::ops::RangeInclusive<u8> = 6..=9;

pub struct Feed {
    maker: Maker,
    left: usize,
    calls: Sender<Seen>,
    program: BufWriter<ChildStdin>,
}

/// A table that begins above 0, with the same stores.
fn odd_table(setup: &Op) -> Option<Op> {
    let Op::Setup { bytes, stores } = setup else {
        return None;
    };
    let table = bytes.table().iter().map(|b| b + 5).collect();
    Some(Op::Setup {
        bytes: Bytes::Table(table),
        stores: stores.clone(),
    })
}

fn one_more_store(mut setup: Op) -> Op {
    if let Op::Setup { stores, .. } = &mut setup {
        stores.truncate(STORES - 1);
        stores.push((ROOMY, Policy::Refresh));
    }
    setup
}

/// The number with which document 01 refuses a call now, where the oracle can
/// tell for sure: of a list of spans it only guesses.
fn sure_refusal(maker: &Maker, op: &Op) -> Option<u8> {
    let number = maker.check(op).err()?.number;
    let guessed = matches!(op, Op::Touch { spans, .. } if spans.len() > 1);
    (NO_ROOM.contains(&number) && !guessed).then_some(number)
}

impl Feed {
    pub fn new(
        (seed, slip): (u64, Option<Slip>),
        left: usize,
        calls: Sender<Seen>,
        program: ChildStdin,
    ) -> Self {
        Self {
            maker: Maker::watched(seed, slip),
            left,
            calls,
            program: BufWriter::with_capacity(1 << 16, program),
        }
    }

    /// Hands on a call; none where no more is wanted or the other end is gone.
    fn hand_on(&mut self, seen: Seen) -> Option<()> {
        self.left = self.left.checked_sub(1)?;
        let text = format!("{}\nstate\n", seen.op);
        // First the one who reads the answers, so that the program never
        // waits for a reader that waits for its call.
        self.calls.send(seen).ok()?;
        self.program.write_all(text.as_bytes()).ok()
    }

    /// Hands on what was made since the last time.
    fn hand_on_made(&mut self) -> Option<()> {
        self.maker.ops.clear();
        let made = self.maker.seen.replace(Vec::new());
        let mut made = made.expect("a watched maker").into_iter();
        made.try_for_each(|seen| self.hand_on(seen))
    }

    /// Hands on a call that the program has to refuse, leaving its state.
    fn hand_on_refused(&mut self, op: Op, number: u8) -> Option<()> {
        let oracle = self.maker.oracle();
        let state = state::absolute(&oracle.radix, &oracle.stores);
        self.hand_on(Seen {
            op,
            answer: format!("refused {number}"),
            state,
            events: Events::default(),
        })
    }

    fn set_up(&mut self, kind: &str) {
        let setup = self.maker.setup(maker::capacities(kind));
        let setup = match kind {
            "tiers" => one_more_store(setup),
            _ => setup,
        };
        if self.maker.rng.one_in(ODD_TABLE_ONE_IN) {
            let odd = odd_table(&setup).expect("a set-up");
            assert!(!self.maker.push(odd), "a listed difference is kept away");
        }
        self.maker.must(setup);
        for _ in 0..maker::FIRST_INSERTS {
            let list = self.maker.insert_list();
            self.maker.push_or_resolve(Op::Insert(list));
        }
    }

    /// A set-up and calls of one kind, up to a refusal that is met.
    fn episode(&mut self, kind: &str) -> Option<()> {
        let length = *self.maker.rng.pick(&LENGTHS);
        let patience = *self.maker.rng.pick(&PATIENCE);
        let mix = mix(kind);
        self.set_up(kind);
        self.hand_on_made()?;
        for _ in maker::FIRST_INSERTS + 1..length {
            self.maker.step(mix, true);
            self.hand_on_made()?;
            if self.met(patience)? {
                break;
            }
        }
        Some(())
    }

    /// Hands on the call that the last step left out, where it is refused
    /// still; whether it did.
    fn met(&mut self, patience: u32) -> Option<bool> {
        let refused = self.maker.refused.take();
        let sure = refused.and_then(|op| Some((sure_refusal(&self.maker, &op)?, op)));
        match sure {
            Some((number, op)) if self.maker.rng.one_in(patience) => {
                self.hand_on_refused(op, number)?;
                Some(true)
            }
            _ => Some(false),
        }
    }

    /// Brings in a block here and there, until a store has no record left.
    fn full(&mut self) -> Option<()> {
        self.set_up("full");
        let list = self.maker.fresh_hashes(LONG);
        if !self.maker.push(Op::Insert(list)) {
            return self.hand_on_made();
        }
        self.hand_on_made()?;
        let node = self.maker.oracle().nodes() - 1;
        let store = self.maker.store();
        while !self.met(1)? {
            let start = self.maker.rng.below(LONG / 2) * 2;
            let end = start + 1;
            self.maker.clock += 1.0;
            self.maker.push(Op::Bring {
                store,
                span: NodeSpan { node, start, end },
                time: self.maker.clock,
                write: 0,
            });
            if self.maker.rng.one_in(4) {
                self.maker.step(&FULL, true);
            }
            self.hand_on_made()?;
        }
        Some(())
    }

    fn limits(&mut self) -> Option<()> {
        let kind = *self.maker.rng.pick(&LIMITS);
        self.maker.wide = false;
        limits::script(kind).expect("a kind")(&mut self.maker);
        self.hand_on_made()
    }

    /// Makes all calls, and says how many were kept away for each listed
    /// difference.
    pub fn run(mut self) -> BTreeMap<&'static str, u64> {
        loop {
            let going = match self.maker.rng.below(LIMITS_ONE_IN) {
                0 => self.limits(),
                1 => self.full(),
                _ => {
                    let kind = *self.maker.rng.pick(&KINDS);
                    self.episode(kind)
                }
            };
            if going.is_none() {
                return self.maker.skipped;
            }
        }
    }
}
