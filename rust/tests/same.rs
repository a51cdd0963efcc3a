//! The library beside the source's own type: every answer of a mixed replay.

#[path = "../../oracle/src/config.rs"]
mod config;
#[path = "../../oracle/src/fx.rs"]
mod fx;
#[path = "../../oracle/src/kv_cache.rs"]
mod kv_cache;
#[allow(dead_code)]
#[path = "../beside/mix.rs"]
mod mix;
#[path = "../../oracle/src/rng.rs"]
mod rng;
#[path = "../beside/sides.rs"]
mod sides;

// radix.rs says `use rustc_hash::FxHashMap`.
extern crate self as rustc_hash;
pub use fx::FxHashMap;

use mix::Call;
use scorebeetle::{EvictionPolicy, Radix, Refusal, Span, TierSource, TierSpan};
use sides::{Ours, Side, Source};

#[test]
fn every_answer_is_the_sources() {
    for seed in 1..=4 {
        let (mut ours, mut source) = (Ours::new(), Source::new());
        for (i, call) in mix::calls(seed, 8_000).iter().enumerate() {
            let place = || format!("seed {seed}, call {i}: {call:?}");
            let theirs = source.call(call);
            assert_eq!(ours.call(call), theirs, "{}", place());
            source.keep(call);
            assert_eq!(ours.counters(), source.counters(), "{}", place());
            if i % 100 == 0 {
                assert!(ours.0.sound_state(), "{}", place());
            }
        }
    }
}

#[test]
fn refusals_have_the_documents_numbers() {
    let mut radix = Radix::new(|k| k as u64, &[(4, EvictionPolicy::Fifo)]).unwrap();
    radix.insert(&[1, 2, 3]).unwrap();
    let span = Span {
        node: 1,
        start: 0,
        end: 3,
    };
    let past = Span { end: 4, ..span };
    let store = TierSource::Store(0);
    assert_eq!(
        radix.store_insert(1, span, None, 0.0),
        Err(Refusal::NoSuchStore)
    );
    assert_eq!(
        radix.store_insert(0, past, None, 0.0),
        Err(Refusal::NoSuchSpan)
    );
    assert_eq!(
        radix.store_insert(0, span, None, f64::NAN),
        Err(Refusal::NotFinite)
    );
    assert_eq!(radix.unpin_source(store, span), Err(Refusal::NotPinned));
    assert_eq!(radix.resolve(&[0; 1025]), Err(Refusal::TooMany));
    assert_eq!(radix.lookup(&[0, 1], &[1]), Err(Refusal::NoSuchStore));
    assert_eq!(radix.lookup(&[0; 9], &[1]), Err(Refusal::TooMany));
    assert_eq!(
        radix.store_promoted(0, &[span; 65], 0.0),
        Err(Refusal::TooMany)
    );
    assert_eq!(
        radix.store_touched(1, &[span; 65], 0.0),
        Err(Refusal::NoSuchStore)
    );
    assert_eq!(
        radix.store_touched(0, &[span, past], 0.0),
        Err(Refusal::NoSuchSpan)
    );
    assert_eq!(radix.store_promoted(0, &[span; 64], 0.0), Ok(0));
    assert_eq!(
        Radix::new(|k| k as u64, &[]).err(),
        Some(Refusal::OutsideTheRules)
    );
    assert_eq!(Refusal::ShortList.number(), 14);
    assert!(radix.sound_state());
}

#[test]
fn counters_say_what_the_calls_did() {
    let mut radix = Radix::new(|k| 100 * k as u64, &[(4, EvictionPolicy::Refresh)]).unwrap();
    radix.insert(&[11, 12, 13, 14, 15]).unwrap();
    let span = Span {
        node: 1,
        start: 0,
        end: 5,
    };
    let out = radix.store_insert(0, span, Some(7), 10.0).unwrap();
    assert_eq!(
        (out.len(), out[0].write_id, out[0].bytes),
        (1, Some(7), 100)
    );
    let store = TierSource::Store(0);
    radix.pin_source(store, Span { end: 2, ..span }).unwrap();
    assert_eq!(radix.store_held_blocks(0), Ok(4));
    assert_eq!(radix.store_capacity_blocks(0), Ok(4));
    assert_eq!(radix.store_pinned_blocks(0), Ok(2));
    assert_eq!(radix.store_available_for_stage(0), Ok(2));
    assert_eq!(radix.source_version(store), Ok(1));
    assert_eq!(radix.pin_stalls(), 0);
    assert_eq!(radix.store_held_blocks(1), Err(Refusal::NoSuchStore));
}

/// Document 01's E7, E8 and E12.
#[test]
fn examples_of_touch_and_lookup() {
    let stores = [(4, EvictionPolicy::Refresh), (4, EvictionPolicy::Refresh)];
    let mut radix = Radix::new(|k| 100 * k as u64, &stores).unwrap();
    let list = [11, 12, 13, 14, 15];
    radix.insert(&list).unwrap();
    let span = |start, end| Span {
        node: 1,
        start,
        end,
    };
    radix.store_insert(0, span(0, 5), Some(7), 10.0).unwrap();
    assert_eq!(radix.store_promoted(0, &[span(1, 3)], 20.0), Ok(200));
    let out = radix.store_insert(0, span(4, 5), None, 30.0).unwrap();
    assert_eq!((out.len(), out[0].span), (1, span(0, 1)));
    assert_eq!((out[0].bytes, out[0].dead_bytes), (100, 0));

    radix.store_remove(0, span(0, 5)).unwrap();
    radix.store_insert(0, span(2, 4), None, 40.0).unwrap();
    radix.store_insert(1, span(0, 4), None, 40.0).unwrap();
    let found = radix.lookup(&[0, 1], &list).unwrap();
    let one = TierSpan {
        tier: 1,
        span: span(0, 4),
        source: TierSource::Store(1),
    };
    assert_eq!(found.tier_spans, [one]);
    assert_eq!((found.path.blocks, found.cached()), (5, 4));
    assert_eq!(found.tier_blocks, [0, 4]);
    assert_eq!(found.tier_bytes, [0, 400]);
}

/// The blocks that come in are those of the gaps, none at capacity 0; those
/// that go are the held ones of the span.
#[test]
fn blocks_of_a_bring_in_and_a_removal() {
    let stores = [(4, EvictionPolicy::Refresh), (0, EvictionPolicy::Fifo)];
    let mut radix = Radix::new(|k| 100 * k as u64, &stores).unwrap();
    radix.insert(&[11, 12, 13, 14, 15]).unwrap();
    let span = |start, end| Span {
        node: 1,
        start,
        end,
    };
    let mut came = |s, span| radix.store_insert_blocks(s, span, Some(7), 10.0).unwrap().1;
    assert_eq!(came(1, span(0, 5)), 0);
    assert_eq!(came(0, span(0, 5)), 5);
    assert_eq!(came(0, span(2, 5)), 1);
    assert_eq!(
        radix.store_remove_blocks(0, span(2, 5)),
        Ok((vec![7, 7], 2))
    );
    assert_eq!(radix.store_remove_blocks(0, span(2, 5)), Ok((vec![], 0)));
    assert_eq!(radix.store_held_blocks(0), Ok(2));
}

/// The six counters of a store, from the calls with soundness known and from
/// the public ones.
fn counters(a: &Radix, b: &mut Radix, s: usize) -> [[Result<u64, Refusal>; 6]; 2] {
    let store = TierSource::Store(s);
    let known = [
        a.store_held_blocks(s).map(u64::from),
        a.store_capacity_blocks(s).map(u64::from),
        a.store_pinned_blocks(s).map(u64::from),
        a.store_available_for_stage(s),
        a.source_version(store),
        Ok(a.pin_stalls()),
    ];
    let checked = [
        b.checked_store_held_blocks(s).map(u64::from),
        b.checked_store_capacity_blocks(s).map(u64::from),
        b.checked_store_pinned_blocks(s).map(u64::from),
        b.checked_store_available_for_stage(s),
        b.checked_source_version(store),
        b.checked_pin_stalls(),
    ];
    [known, checked]
}

/// The public calls answer as those with soundness known.
#[test]
fn checked_calls_answer_the_same() {
    let mut known = Radix::new(mix::bytes, &mix::STORES).unwrap();
    let mut checked = Radix::new(mix::bytes, &mix::STORES).unwrap();
    let calls = mix::calls(5, 2 * mix::PER_SET_UP);
    for kind in 0..mix::KINDS.len() {
        assert!(calls.iter().any(|c| c.kind() == kind));
    }
    for call in calls {
        let (a, b) = (&mut known, &mut checked);
        let store = |s: &usize| TierSource::Store(*s);
        match &call {
            Call::SetUp => assert_eq!(
                a.set_up(mix::bytes, &mix::STORES),
                b.checked_set_up(mix::bytes, &mix::STORES)
            ),
            Call::Insert(list, _) => assert_eq!(a.insert(list), b.checked_insert(list)),
            Call::Resolve(list) => assert_eq!(a.resolve(list), b.checked_resolve(list)),
            Call::Lookup(t, list) => assert_eq!(
                a.lookup(mix::TIERS[*t], list),
                b.checked_lookup(mix::TIERS[*t], list)
            ),
            Call::StoreInsert(s, span, write, at) => assert_eq!(
                a.store_insert(*s, *span, Some(*write), *at),
                b.checked_store_insert(*s, *span, Some(*write), *at)
            ),
            Call::Promoted(s, spans, at) => assert_eq!(
                a.store_promoted(*s, spans, *at),
                b.checked_store_promoted(*s, spans, *at)
            ),
            Call::Touched(s, spans, at) => assert_eq!(
                a.store_touched(*s, spans, *at),
                b.checked_store_touched(*s, spans, *at)
            ),
            Call::StoreRemove(s, span) => {
                assert_eq!(a.store_remove(*s, *span), b.checked_store_remove(*s, *span))
            }
            Call::StoreExpire(s, now, seconds) => assert_eq!(
                a.store_expire(*s, *now, *seconds),
                b.checked_store_expire(*s, *now, *seconds)
            ),
            Call::Pin(s, span) => assert_eq!(
                a.pin_source(store(s), *span),
                b.checked_pin_source(store(s), *span)
            ),
            Call::Unpin(s, span) => assert_eq!(
                a.unpin_source(store(s), *span),
                b.checked_unpin_source(store(s), *span)
            ),
        }
        for s in [0, 1, 2] {
            let [a, b] = counters(&known, &mut checked, s);
            assert_eq!(a, b);
            assert_eq!(a[0].is_err(), s == 2);
        }
    }
}

/// And they refuse the same.
#[test]
fn checked_calls_refuse_the_same() {
    let mut known = Radix::new(mix::bytes, &mix::STORES).unwrap();
    let mut checked = Radix::new(mix::bytes, &mix::STORES).unwrap();
    let (a, b) = (&mut known, &mut checked);
    assert_eq!(a.insert(&[1, 2, 3]), b.checked_insert(&[1, 2, 3]));
    let span = Span {
        node: 1,
        start: 0,
        end: 3,
    };
    let past = Span { end: 4, ..span };
    let touches = [
        (0, vec![span; 65], 0.0, Err(Refusal::TooMany)),
        (0, vec![past; 80], 0.0, Err(Refusal::TooMany)),
        (2, vec![span; 65], 0.0, Err(Refusal::NoSuchStore)),
        (2, vec![past], 0.0, Err(Refusal::NoSuchStore)),
        (0, vec![span, past], 0.0, Err(Refusal::NoSuchSpan)),
        (0, vec![span], f64::NAN, Err(Refusal::NotFinite)),
        (0, vec![span; 64], 0.0, Ok(0)),
        (0, vec![], 0.0, Ok(0)),
    ];
    for (s, spans, at, answer) in touches {
        assert_eq!(a.store_promoted(s, &spans, at), answer);
        assert_eq!(b.checked_store_promoted(s, &spans, at), answer);
        assert_eq!(b.checked_store_touched(s, &spans, at), answer.map(|_| ()));
    }
    let [a, b] = counters(&known, &mut checked, 2);
    assert_eq!(a, b);
    assert_eq!(a[..5], [Err(Refusal::NoSuchStore); 5]);
    for stores in [vec![], vec![(1, EvictionPolicy::Fifo); 9]] {
        let answer = Err(Refusal::OutsideTheRules);
        assert_eq!(known.set_up(mix::bytes, &stores), answer);
        assert_eq!(checked.checked_set_up(mix::bytes, &stores), answer);
    }
    assert!(checked.sound_state());
    assert_eq!(known.resolve(&[1, 2]), checked.checked_resolve(&[1, 2]));
}
