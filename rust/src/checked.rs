//! The public calls, which test the whole state first: each as the method of
//! the same name.

use crate::counters::Counter;
use crate::radix::Radix;
use crate::refusal::Answer;
use crate::types::*;

impl Radix {
    /// It needs no sound state: whatever stands in the pools, it begins anew.
    pub fn checked_set_up(
        &mut self,
        bytes: impl Fn(u32) -> u64,
        stores: &[(u32, EvictionPolicy)],
    ) -> Answer<()> {
        self.set_up(bytes, stores)
    }

    pub fn checked_resolve(&mut self, hashes: &[u64]) -> Answer<Path> {
        self.call_resolve(false, hashes)
    }

    pub fn checked_insert(&mut self, hashes: &[u64]) -> Answer<Path> {
        Ok(self.call_insert(false, hashes)?.0)
    }

    pub fn checked_store_insert(
        &mut self,
        s: StoreId,
        span: Span,
        write_id: Option<u32>,
        now: f64,
    ) -> Answer<Vec<TierEvicted>> {
        Ok(self.call_store_insert(false, s, span, write_id, now)?.0)
    }

    pub fn checked_store_promoted(&mut self, s: StoreId, spans: &[Span], now: f64) -> Answer<u64> {
        self.call_store_used(false, s, spans, now, true)
    }

    pub fn checked_store_touched(&mut self, s: StoreId, spans: &[Span], now: f64) -> Answer<()> {
        self.call_store_used(false, s, spans, now, false)
            .map(|_| ())
    }

    pub fn checked_store_remove(&mut self, s: StoreId, span: Span) -> Answer<Vec<u32>> {
        Ok(self.call_store_remove(false, s, span)?.0)
    }

    pub fn checked_store_expire(
        &mut self,
        s: StoreId,
        now: f64,
        seconds: f64,
    ) -> Answer<Vec<TierEvicted>> {
        self.call_store_expire(false, s, now, seconds)
    }

    pub fn checked_pin_source(&mut self, source: TierSource, span: Span) -> Answer<()> {
        self.call_pin_source(false, source, span)
    }

    pub fn checked_unpin_source(&mut self, source: TierSource, span: Span) -> Answer<()> {
        self.call_unpin_source(false, source, span)
    }

    pub fn checked_lookup(&mut self, tiers: &[StoreId], hashes: &[u64]) -> Answer<HbmLookup> {
        self.call_lookup(false, tiers, hashes)
    }

    pub fn checked_store_held_blocks(&self, s: StoreId) -> Answer<u32> {
        Ok(self.call_counter(false, Counter::Held, s)? as u32)
    }

    pub fn checked_store_capacity_blocks(&self, s: StoreId) -> Answer<u32> {
        Ok(self.call_counter(false, Counter::Capacity, s)? as u32)
    }

    pub fn checked_store_pinned_blocks(&self, s: StoreId) -> Answer<u32> {
        Ok(self.call_counter(false, Counter::Pinned, s)? as u32)
    }

    pub fn checked_store_available_for_stage(&self, s: StoreId) -> Answer<u64> {
        self.call_counter(false, Counter::Available, s)
    }

    pub fn checked_source_version(&self, source: TierSource) -> Answer<u64> {
        let TierSource::Store(s) = source;
        self.call_counter(false, Counter::Version, s)
    }

    pub fn checked_pin_stalls(&self) -> Answer<u64> {
        self.call_counter(false, Counter::Stalls, 0)
    }
}

#[cfg(test)]
mod tests {
    use super::*;
    use crate::lists::ANSWER;
    use crate::raw::call;
    use crate::refusal::Refusal;

    const SPAN: Span = Span {
        node: 1,
        start: 0,
        end: 2,
    };

    /// Two stores, and a list in the tree.
    fn small() -> Radix {
        let stores = [(4, EvictionPolicy::Refresh), (2, EvictionPolicy::Fifo)];
        let mut radix = Radix::new(|k| k as u64, &stores).unwrap();
        radix.insert(&[1, 2, 3]).unwrap();
        radix
    }

    /// The six counters, those of a store of store 0.
    fn counters(radix: &mut Radix) -> [Answer<u64>; 6] {
        [
            radix.checked_store_held_blocks(0).map(u64::from),
            radix.checked_store_capacity_blocks(0).map(u64::from),
            radix.checked_store_pinned_blocks(0).map(u64::from),
            radix.checked_store_available_for_stage(0),
            radix.checked_source_version(TierSource::Store(0)),
            radix.checked_pin_stalls(),
        ]
    }

    #[test]
    fn a_state_that_is_not_sound_is_refused() {
        let mut radix = small();
        radix.pools.depth[0] = 1;
        assert!(!radix.sound_state());
        assert_eq!(counters(&mut radix), [Err(Refusal::NotSound); 6]);
        let spans = [SPAN; 65];
        for count in [1, 64, 65] {
            assert_eq!(
                radix.checked_store_promoted(9, &spans[..count], 0.0),
                Err(Refusal::NotSound)
            );
        }
        radix
            .checked_set_up(|k| k as u64, &[(4, EvictionPolicy::Fifo)])
            .unwrap();
        assert!(radix.sound_state());
        assert_eq!(radix.checked_store_capacity_blocks(0), Ok(4));
    }

    /// A refusal leaves every place of the answer, and an answer every place
    /// behind its values.
    #[test]
    fn places_of_the_answer() {
        let mut radix = small();
        let capacity = |r: &mut Radix, s: StoreId| {
            let which = Counter::Capacity as u8;
            call!(r.scorebeetle_counter[] answer, false, which, s)
        };
        let sevens = [7; ANSWER];
        radix.lists.answer = sevens;
        assert!(radix.checked_store_promoted(9, &[SPAN], 0.0).is_err());
        assert_ne!(capacity(&mut radix, 9), 0);
        assert!(radix.checked_resolve(&[0; 1025]).is_err());
        assert!(radix.checked_lookup(&[9], &[1]).is_err());
        assert!(radix.checked_store_expire(9, 0.0, 0.0).is_err());
        assert!(radix.resolve(&[0; 1025]).is_err());
        assert_eq!(radix.lists.answer, sevens);
        assert_eq!(capacity(&mut radix, 0), 0);
        assert_eq!(radix.lists.answer[0], 4);
        assert_eq!(radix.checked_store_promoted(0, &[SPAN], 0.0), Ok(0));
        assert_eq!(radix.lists.answer[0], 0);
        assert_eq!(radix.lists.answer[1..], sevens[1..]);
    }

    /// Of three lists that differ in length the spans are as many as the
    /// shortest has.
    #[test]
    fn the_shortest_list_counts() {
        let mut radix = small();
        radix.store_insert(0, SPAN, None, 0.0).unwrap();
        let (on, from, upto) = ([1, 9, 9], [0, 0], [2]);
        for (ons, froms, uptos, bytes) in [(3, 2, 1, 2), (1, 2, 1, 2), (0, 2, 1, 0), (3, 0, 1, 0)] {
            let (a, b, c) = (&on[..ons], &from[..froms], &upto[..uptos]);
            for known in [false, true] {
                let r = &mut radix;
                let number = call!(
                    r.scorebeetle_store_used[] answer,
                    known, 0, a.as_ptr(), a.len(), b.as_ptr(), b.len(), c.as_ptr(), c.len(), 1.0, true,
                );
                assert_eq!((number, radix.lists.answer[0]), (0, bytes));
            }
        }
    }

    /// Whatever stands in the books, at a place that counts or at one that
    /// doesn't, a refused call leaves it: no store has the number 9.
    #[test]
    fn a_refusal_changes_no_number_of_the_books() {
        let mut tried = 0;
        for place in 0..crate::pools::BOOKS {
            for number in [0, 1, 2, 3, 1 << 48, u64::MAX] {
                let mut radix = small();
                radix.pools.books[place] = number;
                let before = radix.pools.books;
                assert!(radix
                    .checked_pin_source(TierSource::Store(9), SPAN)
                    .is_err());
                assert!(radix.checked_store_insert(9, SPAN, None, 0.0).is_err());
                assert!(radix.checked_store_remove(9, SPAN).is_err());
                assert!(radix.checked_store_promoted(9, &[SPAN], 0.0).is_err());
                assert!(radix.checked_store_held_blocks(9).is_err());
                assert_eq!(radix.pools.books, before, "place {place}, number {number}");
                tried += 1;
            }
        }
        assert_eq!(tried, 1536);
    }
}
