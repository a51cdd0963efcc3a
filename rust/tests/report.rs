//! The report beside a plain `Radix`: the same answers, and the sums of these.

#[allow(dead_code)]
#[path = "../beside/mix.rs"]
mod mix;
#[path = "../../oracle/src/rng.rs"]
mod rng;

use mix::Call;
use rng::Rng;
use scorebeetle::*;
use std::collections::BTreeMap;
use std::fmt::Debug;

include!("readme/report.rs");

#[test]
fn the_example_of_the_readme() {
    let readme = include_str!("../README.md");
    assert!(readme.contains(include_str!("readme/report.rs")));
    assert!(readme.contains(&week().unwrap().to_string()));
}

/// Document 01's E6 to E11 with a lookup before E9, then a span that is not
/// there and a line that is not read.
#[test]
fn the_example_of_the_form() {
    let stores = [(4, EvictionPolicy::Refresh), (0, EvictionPolicy::Fifo)];
    let mut report = Report::new(|k| 100 * k as u64, &stores).unwrap();
    let list = [11, 12, 13, 14, 15];
    let span = |start, end| Span {
        node: 1,
        start,
        end,
    };
    report.insert(&list).unwrap();
    report.store_insert(1, span(0, 5), Some(7), 10.0).unwrap();
    report.store_insert(0, span(0, 5), Some(7), 10.0).unwrap();
    report.store_promoted(0, &[span(1, 3)], 20.0).unwrap();
    report.lookup(&[0], &list).unwrap();
    report.store_insert(0, span(4, 5), None, 30.0).unwrap();
    report.store_expire(0, 40.0, 20.0).unwrap();
    report.store_remove(0, span(1, 2)).unwrap();
    report.store_insert(0, span(4, 6), None, 30.0).unwrap_err();
    report.unreadable();
    let lines = "\
store 0 cap=4 pol=refresh in=6 room=2 age=1 back=0 removed=1 held=2 bytes=300 dead=200
store 1 cap=0 pol=fifo in=0 room=0 age=0 back=5 removed=0 held=0 bytes=500 dead=0
lookups 1 blocks 4 bytes 400
refused 4 1
unreadable 1
";
    assert_eq!(report.to_string(), lines);
}

/// 32,768 times 2^48 bytes would be 2^63: the last bring-in is refused.
#[test]
fn a_run_that_reaches_the_limit() {
    let bytes = |k| if k == 0 { 0 } else { 1 << 48 };
    let mut report = Report::new(bytes, &[(0, EvictionPolicy::Fifo)]).unwrap();
    report.insert(&[11, 12]).unwrap();
    let span = Span {
        node: 1,
        start: 0,
        end: 2,
    };
    for _ in 1..32_768 {
        report.store_insert(0, span, None, 0.0).unwrap();
    }
    let sums = StoreSums {
        back: 2 * 32_767,
        bytes: 32_767 << 48,
        ..StoreSums::default()
    };
    assert_eq!(report.store_sums(0), Ok(sums));
    for _ in 0..2 {
        assert_eq!(
            report.store_insert(0, span, None, 0.0),
            Err(Refusal::SumPastLimit)
        );
        assert_eq!(report.store_sums(0), Ok(sums));
    }
    // Every other refusal comes first, and what adds no bytes is still taken.
    let past = Span { end: 3, ..span };
    assert_eq!(
        report.store_insert(0, past, None, 0.0),
        Err(Refusal::NoSuchSpan)
    );
    let second = Span { start: 1, ..span };
    assert_eq!(report.store_insert(0, second, None, 0.0).unwrap().len(), 1);
    let back = sums.back + 1;
    assert_eq!(report.store_sums(0), Ok(StoreSums { back, ..sums }));
    let lines = "\
store 0 cap=0 pol=fifo in=0 room=0 age=0 back=65535 removed=0 held=0 bytes=9223090561878065152 dead=0
lookups 0 blocks 0 bytes 0
refused 4 1
refused 21 2
unreadable 0
";
    assert_eq!(report.to_string(), lines);
}

/// Less room than the mixed replay reckons with, so that much is given out; and
/// a store that holds nothing.
const STORES: [(u32, EvictionPolicy); 3] = [
    (60, EvictionPolicy::Refresh),
    (90, EvictionPolicy::Fifo),
    (0, EvictionPolicy::Fifo),
];

/// A report, a plain `Radix`, and the sums of the latter's answers.
struct Beside {
    report: Report,
    plain: Radix,
    stores: [StoreSums; STORES.len()],
    lookups: LookupSums,
    refused: BTreeMap<Refusal, u64>,
}

impl Beside {
    fn new() -> Self {
        Self {
            report: Report::new(mix::bytes, &STORES).unwrap(),
            plain: Radix::new(mix::bytes, &STORES).unwrap(),
            stores: Default::default(),
            lookups: LookupSums::default(),
            refused: BTreeMap::new(),
        }
    }

    /// Both answer the same, and a refusal is counted.
    fn same<T: PartialEq + Debug>(&mut self, ours: Answer<T>, plain: Answer<T>) -> Option<T> {
        assert_eq!(ours, plain);
        if let Err(why) = plain {
            *self.refused.entry(why).or_default() += 1;
        }
        ours.ok()
    }

    fn call(&mut self, call: &Call) {
        let (r, p) = (&mut self.report, &mut self.plain);
        let store = TierSource::Store;
        match call {
            Call::SetUp => *self = Self::new(),
            Call::Insert(list, _) => {
                let (ours, plain) = (r.insert_cut(list), p.insert_cut(list));
                self.same(ours, plain);
            }
            Call::Resolve(list) => {
                let (ours, plain) = (r.resolve(list), p.resolve(list));
                self.same(ours, plain);
            }
            Call::Lookup(t, list) => {
                let tiers = mix::TIERS[*t];
                let (ours, plain) = (r.lookup(tiers, list), p.lookup(tiers, list));
                if let Some(found) = self.same(ours, plain) {
                    self.lookups.lookups += 1;
                    self.lookups.blocks += found.cached() as u64;
                    self.lookups.bytes += found.tier_bytes.iter().sum::<u64>();
                }
            }
            Call::StoreInsert(s, span, write, at) => {
                let ours = r.store_insert_blocks(*s, *span, Some(*write), *at);
                let plain = p.store_insert_blocks(*s, *span, Some(*write), *at);
                if let Some((out, blocks)) = self.same(ours, plain) {
                    let sums = &mut self.stores[*s];
                    sums.brought += blocks as u64;
                    if STORES[*s].0 == 0 {
                        sums.back += given_out(sums, &out);
                    } else {
                        sums.room += given_out(sums, &out);
                    }
                }
            }
            Call::Promoted(s, spans, at) => {
                let ours = r.store_promoted(*s, spans, *at);
                let plain = p.store_promoted(*s, spans, *at);
                self.same(ours, plain);
            }
            Call::Touched(s, spans, at) => {
                let ours = r.store_touched(*s, spans, *at);
                let plain = p.store_touched(*s, spans, *at);
                self.same(ours, plain);
            }
            Call::StoreRemove(s, span) => {
                let ours = r.store_remove_blocks(*s, *span);
                let plain = p.store_remove_blocks(*s, *span);
                if let Some((_, blocks)) = self.same(ours, plain) {
                    self.stores[*s].removed += blocks as u64;
                }
            }
            Call::StoreExpire(s, now, seconds) => {
                let ours = r.store_expire(*s, *now, *seconds);
                let plain = p.store_expire(*s, *now, *seconds);
                if let Some(out) = self.same(ours, plain) {
                    let sums = &mut self.stores[*s];
                    sums.age += given_out(sums, &out);
                }
            }
            Call::Pin(s, span) => {
                let ours = r.pin_source(store(*s), *span);
                let plain = p.pin_source(store(*s), *span);
                self.same(ours, plain);
            }
            Call::Unpin(s, span) => {
                let ours = r.unpin_source(store(*s), *span);
                let plain = p.unpin_source(store(*s), *span);
                self.same(ours, plain);
            }
        }
    }

    /// The report has these sums, and they keep the law.
    fn check(&mut self) {
        for (s, sums) in self.stores.iter_mut().enumerate() {
            sums.held = self.plain.store_held_blocks(s).unwrap() as u64;
            assert_eq!(self.report.store_sums(s), Ok(*sums));
            if STORES[s].0 > 0 {
                let gone = sums.room + sums.age + sums.removed;
                assert_eq!((sums.brought, sums.back), (gone + sums.held, 0));
            } else {
                assert_eq!((sums.brought, sums.held), (0, 0));
            }
        }
        assert_eq!(
            self.report.store_sums(STORES.len()),
            Err(Refusal::NoSuchStore)
        );
        assert_eq!(self.report.lookup_sums(), self.lookups);
        let refused: BTreeMap<_, _> = self.report.refusals().collect();
        assert_eq!(refused, self.refused);
    }
}

/// The blocks that were given out; bytes and dead bytes are added.
fn given_out(sums: &mut StoreSums, out: &[TierEvicted]) -> u64 {
    sums.bytes += out.iter().map(|e| e.bytes).sum::<u64>();
    sums.dead += out.iter().map(|e| e.dead_bytes).sum::<u64>();
    let blocks = |e: &TierEvicted| (e.span.end - e.span.start) as u64;
    out.iter().map(blocks).sum()
}

/// Now and then another store, one that isn't there among them, a span past
/// its node, a list that is too long, or no time. Less room has younger blocks,
/// so that expiries ask for a quarter of the age.
fn disturb(call: &mut Call, rng: &mut Rng) {
    let store = match call {
        Call::StoreInsert(s, span, _, at) => {
            span.end += 30 * rng.one_in(20) as u32;
            if rng.one_in(20) {
                *at = f64::NAN;
            }
            s
        }
        Call::StoreRemove(s, span) => {
            span.end += 30 * rng.one_in(20) as u32;
            s
        }
        Call::StoreExpire(s, _, seconds) => {
            *seconds /= 4.0;
            if rng.one_in(20) {
                *seconds = f64::NAN;
            }
            s
        }
        Call::Lookup(_, list) if rng.one_in(20) => {
            list.resize(1025, 0);
            return;
        }
        Call::Promoted(s, ..) | Call::Touched(s, ..) => s,
        Call::Pin(s, _) | Call::Unpin(s, _) => s,
        _ => return,
    };
    if rng.one_in(4) {
        *store = rng.between(0, STORES.len() as u32) as usize;
    }
}

#[test]
fn sums_of_the_answers() {
    for seed in 11..=20 {
        let mut beside = Beside::new();
        let mut rng = Rng::new(seed);
        for mut call in mix::calls(seed, mix::PER_SET_UP) {
            disturb(&mut call, &mut rng);
            beside.call(&call);
            beside.check();
        }
        // Every figure came, and every refusal that a disturbed call has.
        let [a, b, c] = beside.stores;
        for s in [a, b] {
            assert!(s.room > 0 && s.age > 0 && s.removed > 0, "seed {seed}");
            assert!(s.bytes > s.dead && s.dead > 0, "seed {seed}");
        }
        assert!(c.back > 0 && beside.lookups.bytes > 0, "seed {seed}");
        for why in [
            Refusal::NoSuchStore,
            Refusal::TooMany,
            Refusal::NoSuchSpan,
            Refusal::NotFinite,
        ] {
            assert!(beside.refused.contains_key(&why), "seed {seed}: {why}");
        }
    }
}
