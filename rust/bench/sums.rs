//! What keeping the sums costs: the counted calls of a `Report` beside those of
//! a `Radix`, on the same inputs and in turn.

use crate::mix::{self, bytes, Call, KINDS, STORES, TIERS};
use crate::sides::Side;
use crate::{mean, tick, times, CALLS};
use scorebeetle::{Radix, Report, TierSource};
use std::hint::black_box;

/// The call, whose answer is dropped.
macro_rules! made {
    ($radix:expr, $call:expr) => {
        match $call {
            Call::SetUp => {}
            Call::Insert(list, _) => drop(black_box($radix.insert(list).unwrap())),
            Call::Resolve(list) => drop(black_box($radix.resolve(list).unwrap())),
            Call::Lookup(tiers, list) => {
                drop(black_box($radix.lookup(TIERS[*tiers], list).unwrap()))
            }
            Call::StoreInsert(s, span, write, at) => {
                let out = $radix.store_insert(*s, *span, Some(*write), *at);
                drop(black_box(out.unwrap()));
            }
            Call::Promoted(s, spans, at) => {
                black_box($radix.store_promoted(*s, spans, *at).unwrap());
            }
            Call::Touched(s, spans, at) => $radix.store_touched(*s, spans, *at).unwrap(),
            Call::StoreRemove(s, span) => drop(black_box($radix.store_remove(*s, *span).unwrap())),
            Call::StoreExpire(s, now, seconds) => {
                drop(black_box($radix.store_expire(*s, *now, *seconds).unwrap()))
            }
            Call::Pin(s, span) => $radix.pin_source(TierSource::Store(*s), *span).unwrap(),
            Call::Unpin(s, span) => $radix.unpin_source(TierSource::Store(*s), *span).unwrap(),
        }
    };
}

struct Plain(Radix);

impl Side for Plain {
    fn call(&mut self, call: &Call) -> Vec<u64> {
        if let Call::SetUp = call {
            self.0 = Radix::new(bytes, &STORES).unwrap();
        }
        made!(self.0, call);
        Vec::new()
    }
}

struct Counted(Report);

impl Side for Counted {
    fn call(&mut self, call: &Call) -> Vec<u64> {
        if let Call::SetUp = call {
            self.0 = Report::new(bytes, &STORES).unwrap();
        }
        made!(self.0, call);
        Vec::new()
    }
}

/// The name of each call, a line each, for `rust/instructions`.
pub fn kinds() {
    for call in mix::calls(1, CALLS) {
        println!("{}", KINDS[call.kind()]);
    }
}

pub fn run(runs: usize) {
    let calls = mix::calls(1, CALLS);
    let mut plain = Plain(Radix::new(bytes, &STORES).unwrap());
    let mut counted = Counted(Report::new(bytes, &STORES).unwrap());
    let (mut a, mut b) = (vec![u64::MAX; CALLS], vec![u64::MAX; CALLS]);
    for _ in 0..runs {
        for (side, best) in [
            (&mut plain as &mut dyn Side, &mut a),
            (&mut counted, &mut b),
        ] {
            for (best, took) in best.iter_mut().zip(times(&calls, 1, side)) {
                *best = took.min(*best);
            }
        }
    }
    let tick = tick();
    println!("| Call | calls | plain ns | counted ns | ratio |");
    println!("|---|---|---|---|---|");
    for (kind, name) in KINDS.iter().enumerate() {
        let count = calls.iter().filter(|c| c.kind() == kind).count();
        let (x, y) = (mean(&calls, &a, Some(kind)), mean(&calls, &b, Some(kind)));
        println!(
            "| {name} | {count} | {:.0} | {:.0} | {:.2} |",
            x * tick,
            y * tick,
            y / x
        );
    }
}
