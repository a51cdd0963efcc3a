//! The library beside the source, in one process on the same inputs. Prints
//! the tables of docs/SPEED.md.
//!
//! A call is timed by the processor's counter. The replay is run several times
//! and each call counts with its shortest time, so that what else the machine
//! does stays out of the figures.

#[path = "../../oracle/src/config.rs"]
mod config;
mod fx;
mod grow;
#[path = "../../oracle/src/kv_cache.rs"]
mod kv_cache;
#[path = "../beside/mix.rs"]
mod mix;
mod replay;
#[path = "../../oracle/src/rng.rs"]
mod rng;
#[path = "../beside/sides.rs"]
mod sides;
mod sums;

// radix.rs says `use rustc_hash::FxHashMap`.
extern crate self as rustc_hash;
pub use fx::FxHashMap;

use mix::{Call, KINDS, TIERS};
use scorebeetle::TierSource;
use sides::{Ours, Side, Source};
use std::arch::x86_64::_rdtsc;
use std::hint::black_box;
use std::time::{Duration, Instant};

const CALLS: usize = 200_000;
const RUNS: usize = 7;

pub fn ticks() -> u64 {
    // SAFETY: every x86-64 processor has the counter.
    unsafe { _rdtsc() }
}

/// Nanoseconds of one tick.
pub fn tick() -> f64 {
    let (start, from) = (Instant::now(), ticks());
    while start.elapsed() < Duration::from_millis(200) {}
    start.elapsed().as_nanos() as f64 / (ticks() - from) as f64
}

/// The public calls, which test the state first. A touch is timed as the whole
/// test and the call with soundness known, which is what the public call does.
struct Public(Ours);

impl Side for Public {
    fn call(&mut self, call: &Call) -> Vec<u64> {
        let radix = &mut self.0 .0;
        match call {
            Call::Resolve(list) => drop(black_box(radix.checked_resolve(list).unwrap())),
            Call::Insert(list, _) => drop(black_box(radix.checked_insert(list).unwrap())),
            Call::Lookup(tiers, list) => drop(black_box(
                radix.checked_lookup(TIERS[*tiers], list).unwrap(),
            )),
            Call::StoreInsert(s, span, write, at) => {
                let out = radix.checked_store_insert(*s, *span, Some(*write), *at);
                drop(black_box(out.unwrap()));
            }
            Call::StoreRemove(s, span) => {
                drop(black_box(radix.checked_store_remove(*s, *span).unwrap()))
            }
            Call::StoreExpire(s, now, seconds) => drop(black_box(
                radix.checked_store_expire(*s, *now, *seconds).unwrap(),
            )),
            Call::Pin(s, span) => radix
                .checked_pin_source(TierSource::Store(*s), *span)
                .unwrap(),
            Call::Unpin(s, span) => radix
                .checked_unpin_source(TierSource::Store(*s), *span)
                .unwrap(),
            Call::Promoted(..) | Call::Touched(..) => {
                assert!(radix.sound_state());
                return self.0.call(call);
            }
            Call::SetUp => return self.0.call(call),
        }
        Vec::new()
    }
}

/// The shortest time of each call over the runs.
fn times(calls: &[Call], runs: usize, side: &mut dyn Side) -> Vec<u64> {
    let mut best = vec![u64::MAX; calls.len()];
    for _ in 0..runs {
        for (call, best) in calls.iter().zip(&mut best) {
            let from = ticks();
            let answer = side.call(call);
            let took = ticks() - from;
            black_box(answer);
            *best = took.min(*best);
            side.keep(call);
        }
    }
    best
}

fn mean(calls: &[Call], times: &[u64], kind: Option<usize>) -> f64 {
    let of_kind = |c: &Call| kind.is_none_or(|k| c.kind() == k);
    let chosen = calls.iter().zip(times).filter(|(c, _)| of_kind(c));
    let (count, sum) = chosen.fold((0u64, 0u64), |(n, t), (_, x)| (n + 1, t + x));
    sum as f64 / count as f64
}

fn compare(calls: &[Call]) {
    let (mut ours, mut source) = (Ours::new(), Source::new());
    for call in calls {
        assert_eq!(ours.call(call), source.call(call), "{call:?}");
        source.keep(call);
    }
}

fn main() {
    let args: Vec<String> = std::env::args().skip(1).collect();
    let words: Vec<&str> = args.iter().map(String::as_str).collect();
    match &words[..] {
        [] => tables(),
        ["sums"] => sums::run(RUNS),
        ["sums", "once"] => sums::run(1),
        ["kinds"] => sums::kinds(),
        [name, lines, file, ..] => {
            let lines = lines.parse().expect("a number");
            replay::run(name, lines, file, &args[3..])
        }
        _ => panic!("no such words: {words:?}"),
    }
}

fn tables() {
    let calls = mix::calls(1, CALLS);
    compare(&calls[..20_000]);
    let source = times(&calls, RUNS, &mut Source::new());
    let ours = times(&calls, RUNS, &mut Ours::new());
    let public = times(&calls[..20_000], 3, &mut Public(Ours::new()));
    let tick = tick();
    let ns = |x: f64| x * tick;
    println!("| Call | calls | source ns | library ns | ratio | public ns |");
    println!("|---|---|---|---|---|---|");
    let row = |name: &str, kind: Option<usize>| {
        let of_kind = |c: &&Call| kind.is_none_or(|k| c.kind() == k);
        let count = calls.iter().filter(of_kind).count();
        let (a, b) = (mean(&calls, &source, kind), mean(&calls, &ours, kind));
        let c = mean(&calls[..20_000], &public, kind);
        println!(
            "| {name} | {count} | {:.0} | {:.0} | {:.2} | {:.0} |",
            ns(a),
            ns(b),
            b / a,
            ns(c)
        );
    };
    for (kind, name) in KINDS.iter().enumerate() {
        row(name, Some(kind));
    }
    row("mixed replay", None);
    println!();
    grow::run(tick, ns(mean(&calls, &source, None)));
}
