//! Random workloads in document 01's domain, away from the listed
//! differences. The oracle runs along, so that spans, ages and pins are
//! chosen from what is held.

use crate::domain;
use crate::driver::{Driver, Numbered, Oracle};
use crate::events::{Before, Seen};
use crate::form::{Bytes, Op, Policy};
use crate::limits;
use crate::rng::Rng;
use crate::slips::Slip;
use std::collections::BTreeMap;

/// A tree is filled for this many calls, then a set-up begins another.
const CALLS_PER_SETUP: usize = 140;

/// A set-up is followed by this many inserts.
pub const FIRST_INSERTS: usize = 4;

const TRIES: usize = 30;

/// The name under which refused calls are counted.
pub const REFUSED: &str = "refused";

#[derive(Debug, Clone, Copy)]
pub enum Call {
    Insert,
    Resolve,
    Bring,
    Touch,
    Remove,
    Expire,
    Pin,
    Unpin,
    Lookup,
}

use Call::*;

/// The calls of a kind, each as often as its number says.
pub fn mix(kind: &str) -> Option<&'static [(Call, u32)]> {
    Some(match kind {
        "tree" | "unchained" => &[(Insert, 1), (Resolve, 1)],
        "trim" => &[(Insert, 2), (Bring, 12), (Touch, 1), (Lookup, 1)],
        "touch" => &[(Insert, 1), (Bring, 5), (Touch, 9)],
        "remove" => &[(Insert, 2), (Bring, 7), (Touch, 5), (Remove, 7)],
        "expire" => &[(Insert, 1), (Bring, 6), (Touch, 3), (Expire, 6)],
        "pins" => &[
            (Insert, 1),
            (Bring, 7),
            (Touch, 1),
            (Remove, 1),
            (Pin, 4),
            (Unpin, 3),
        ],
        "cuts" => &[
            (Insert, 6),
            (Bring, 6),
            (Touch, 4),
            (Pin, 3),
            (Unpin, 1),
            (Expire, 1),
        ],
        "lookup" => &[(Insert, 2), (Bring, 7), (Remove, 1), (Lookup, 8)],
        "mixed" => &[
            (Insert, 3),
            (Resolve, 1),
            (Bring, 9),
            (Touch, 5),
            (Remove, 3),
            (Expire, 2),
            (Pin, 3),
            (Unpin, 2),
            (Lookup, 3),
        ],
        _ => return None,
    })
}

/// The capacities that a kind's stores get: tight ones where trimming is the
/// matter, roomy ones where it would only get in the way.
pub fn capacities(kind: &str) -> &'static [u64] {
    match kind {
        "trim" | "pins" => &[0, 1, 2, 3, 4, 5, 7, 9, 12, 20, 33],
        "full" => &[333, 1_000_000],
        "lookup" | "tiers" | "remove" => &[0, 7, 15, 33, 60, 100, 333, 1_000_000],
        _ => &[0, 1, 3, 5, 7, 12, 20, 20, 33, 40, 100, 1_000_000],
    }
}

pub struct Maker {
    pub rng: Rng,
    pub ops: Vec<Op>,
    pub clock: f64,
    pub next_hash: u64,
    /// Hashes of all 64 bits rather than small ones.
    pub wide: bool,
    /// The calls as the oracle answered them, where that is asked for.
    pub seen: Option<Vec<Seen>>,
    /// How many calls were not made because of each listed difference, and
    /// because document 01 refuses them.
    pub skipped: BTreeMap<&'static str, u64>,
    /// The last call that was not made because document 01 refuses it.
    pub refused: Option<Op>,
    driver: Driver,
}

impl Maker {
    fn new(seed: u64) -> Self {
        Self {
            rng: Rng::new(seed),
            ops: Vec::new(),
            clock: 1.0,
            next_hash: 10,
            wide: false,
            seen: None,
            skipped: BTreeMap::new(),
            refused: None,
            // The one hash near the top that workloads use.
            driver: Driver::new([u64::MAX].into()),
        }
    }

    /// A maker that keeps what the oracle answered, with a slip if one is
    /// wanted.
    pub fn watched(seed: u64, slip: Option<Slip>) -> Self {
        let maker = Self::new(seed);
        Self {
            seen: Some(Vec::new()),
            driver: maker.driver.with(slip),
            ..maker
        }
    }

    pub fn oracle(&self) -> &Oracle {
        self.driver
            .oracle()
            .expect("a workload begins with a set-up")
    }

    /// Why document 01 refuses a call now.
    pub fn check(&self, op: &Op) -> Result<(), domain::Refused> {
        self.driver.check(op)
    }

    /// Adds a call, unless document 01 refuses it or it leads to a listed
    /// difference.
    pub fn push(&mut self, op: Op) -> bool {
        if let Some(name) = domain::listed_difference(self.driver.oracle().ok(), &op) {
            *self.skipped.entry(name).or_default() += 1;
            return false;
        }
        if self.check(&op).is_err() {
            *self.skipped.entry(REFUSED).or_default() += 1;
            self.refused = Some(op);
            return false;
        }
        self.make(op);
        true
    }

    fn make(&mut self, op: Op) {
        let watched = self.seen.is_some();
        let before = watched.then(|| Before::of(self.driver.oracle().ok(), &op));
        let answer = self.driver.checked(&op);
        let answer = answer.expect("the Rust keeps every node");
        if let Some(before) = before {
            let seen = before.seen(self.oracle(), &op, answer);
            self.seen.as_mut().unwrap().push(seen);
        }
        self.ops.push(op);
    }

    /// Adds a call that has to be in the domain.
    pub fn must(&mut self, op: Op) {
        let text = op.to_string();
        assert!(self.push(op), "outside the domain: {text}");
    }

    /// Adds a call or, where that fails, a resolve.
    pub fn push_or_resolve(&mut self, op: Op) {
        if !self.push(op) {
            let list = self.known_list();
            self.must(Op::Resolve(list));
        }
    }

    fn bytes(&mut self) -> Bytes {
        if !self.rng.one_in(5) {
            return Bytes::Each(*self.rng.pick(&[1, 100, 100, 100, 7, 7, 4096, 0, 1 << 38]));
        }
        let step = *self.rng.pick(&[1, 2, 9, 50]);
        let mut table = vec![0];
        for k in 0..1024 {
            table.push(table[k] + self.rng.below(step + 1) as u64);
        }
        Bytes::Table(table)
    }

    pub fn setup(&mut self, capacities: &[u64]) -> Op {
        self.clock = 1.0;
        self.next_hash = 10;
        self.wide = self.rng.one_in(6);
        let bytes = self.bytes();
        let count = *self.rng.pick(&[1, 1, 1, 2, 2, 3, 4, 8]);
        let mut stores = Vec::new();
        for _ in 0..count {
            let capacity = *self.rng.pick(capacities);
            let policy = *self
                .rng
                .pick(&[Policy::Fifo, Policy::Refresh, Policy::Refresh]);
            stores.push((capacity, policy));
        }
        Op::Setup { bytes, stores }
    }

    fn propose(&mut self, call: Call, chained: bool) -> Op {
        match call {
            Insert if !chained => Op::Insert(self.unchained_list()),
            Resolve if !chained => Op::Resolve(self.unchained_list()),
            Insert => Op::Insert(self.insert_list()),
            Resolve => Op::Resolve(self.known_list()),
            Bring => self.bring(),
            Touch => self.touch(),
            Remove => self.remove(),
            Expire => self.expire(),
            Pin => self.pin(),
            Unpin => self.unpin(),
            Lookup => self.lookup(),
        }
    }

    /// Adds one call of the mix; where many tries fail, a resolve.
    pub fn step(&mut self, mix: &[(Call, u32)], chained: bool) {
        let all: u32 = mix.iter().map(|m| m.1).sum();
        for _ in 0..TRIES {
            let mut at = self.rng.below(all);
            let chosen = mix.iter().find(|m| {
                let here = at < m.1;
                at = at.saturating_sub(m.1);
                here
            });
            let op = self.propose(chosen.unwrap().0, chained);
            if self.push(op) {
                return;
            }
        }
        let list = self.known_list();
        self.must(Op::Resolve(list));
    }
}

/// `n` calls of a kind; the limits have as many as they need.
pub fn workload(seed: u64, n: usize, kind: &str) -> Result<Vec<Op>, String> {
    let mut maker = Maker::new(seed);
    if let Some(script) = limits::script(kind) {
        script(&mut maker);
        maker.ops.truncate(n);
        return Ok(maker.ops);
    }
    let mix = mix(kind).ok_or(format!("no such kind: {kind}"))?;
    for i in 0..n {
        match i % CALLS_PER_SETUP {
            0 => {
                let setup = maker.setup(capacities(kind));
                maker.must(setup);
            }
            1..=FIRST_INSERTS if kind != "unchained" => {
                let list = maker.insert_list();
                maker.push_or_resolve(Op::Insert(list));
            }
            _ => maker.step(mix, kind != "unchained"),
        }
    }
    Ok(maker.ops)
}
