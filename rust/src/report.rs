//! A `Radix` whose answers are summed: request P1's report.

use crate::radix::Radix;
use crate::refusal::{Answer, Refusal};
use crate::tally::{Sums, LIMIT, LOOKUPS, STORES};
use crate::types::*;
use std::collections::BTreeMap;
use std::fmt;

/// The calls of [`Radix`], with sums of what they answered. The library adds
/// to a sum in the call itself, and refuses the call where the sum would pass
/// 2^63 - 1; nothing is changed then. For each store of capacity above 0,
/// `brought` is `room + age + removed + held`.
///
/// It prints as the report of a trace does, a line each with its end.
pub struct Report {
    radix: Radix,
    stores: Vec<(u32, EvictionPolicy)>,
    sums: Sums,
    refused: BTreeMap<Refusal, u64>,
    unreadable: u64,
}

/// What a store's answers sum up to: blocks that came in, that were given out
/// for room, by age and at once since the capacity is 0, that were removed and
/// that are held now; the bytes of what was given out, and the dead ones.
#[derive(Debug, Clone, Copy, Default, PartialEq, Eq)]
pub struct StoreSums {
    pub brought: u64,
    pub room: u64,
    pub age: u64,
    pub back: u64,
    pub removed: u64,
    pub held: u64,
    pub bytes: u64,
    pub dead: u64,
}

/// How many lookups were made, and what all tiers had of them.
#[derive(Debug, Clone, Copy, Default, PartialEq, Eq)]
pub struct LookupSums {
    pub lookups: u64,
    pub blocks: u64,
    pub bytes: u64,
}

/// One more, and at the limit no more.
fn count(times: &mut u64) {
    *times = LIMIT.min(*times + 1);
}

impl Report {
    /// As `Radix::new`, with every sum 0.
    pub fn new(bytes: impl Fn(u32) -> u64, stores: &[(u32, EvictionPolicy)]) -> Answer<Self> {
        Ok(Self {
            radix: Radix::new(bytes, stores)?,
            stores: stores.to_vec(),
            sums: [0; LOOKUPS + 3],
            refused: BTreeMap::new(),
            unreadable: 0,
        })
    }

    /// For the counters.
    pub fn radix(&self) -> &Radix {
        &self.radix
    }

    /// An answer as it is; a refusal is counted.
    fn noted<T>(&mut self, answer: Answer<T>) -> Answer<T> {
        if let Err(why) = &answer {
            count(self.refused.entry(*why).or_default());
        }
        answer
    }
}

/// The calls, each as that of `Radix`.
impl Report {
    pub fn resolve(&mut self, hashes: &[u64]) -> Answer<Path> {
        let answer = self.radix.resolve(hashes);
        self.noted(answer)
    }

    pub fn insert(&mut self, hashes: &[u64]) -> Answer<Path> {
        Ok(self.insert_cut(hashes)?.0)
    }

    pub fn insert_cut(&mut self, hashes: &[u64]) -> Answer<(Path, Option<Cut>)> {
        let answer = self.radix.insert_cut(hashes);
        self.noted(answer)
    }

    pub fn store_insert(
        &mut self,
        s: StoreId,
        span: Span,
        write_id: Option<u32>,
        now: f64,
    ) -> Answer<Vec<TierEvicted>> {
        Ok(self.store_insert_blocks(s, span, write_id, now)?.0)
    }

    pub fn store_insert_blocks(
        &mut self,
        s: StoreId,
        span: Span,
        write_id: Option<u32>,
        now: f64,
    ) -> Answer<(Vec<TierEvicted>, u32)> {
        let sums = &mut self.sums;
        let answer = self.radix.tally_insert(sums, s, span, write_id, now);
        self.noted(answer)
    }

    pub fn store_promoted(&mut self, s: StoreId, spans: &[Span], now: f64) -> Answer<u64> {
        let answer = self.radix.store_promoted(s, spans, now);
        self.noted(answer)
    }

    pub fn store_touched(&mut self, s: StoreId, spans: &[Span], now: f64) -> Answer<()> {
        let answer = self.radix.store_touched(s, spans, now);
        self.noted(answer)
    }

    pub fn store_remove(&mut self, s: StoreId, span: Span) -> Answer<Vec<u32>> {
        Ok(self.store_remove_blocks(s, span)?.0)
    }

    pub fn store_remove_blocks(&mut self, s: StoreId, span: Span) -> Answer<(Vec<u32>, u32)> {
        let answer = self.radix.tally_remove(&mut self.sums, s, span);
        self.noted(answer)
    }

    pub fn store_expire(&mut self, s: StoreId, now: f64, seconds: f64) -> Answer<Vec<TierEvicted>> {
        let answer = self.radix.tally_expire(&mut self.sums, s, now, seconds);
        self.noted(answer)
    }

    pub fn pin_source(&mut self, source: TierSource, span: Span) -> Answer<()> {
        let answer = self.radix.pin_source(source, span);
        self.noted(answer)
    }

    pub fn unpin_source(&mut self, source: TierSource, span: Span) -> Answer<()> {
        let answer = self.radix.unpin_source(source, span);
        self.noted(answer)
    }

    pub fn lookup(&mut self, tiers: &[StoreId], hashes: &[u64]) -> Answer<HbmLookup> {
        let answer = self.radix.tally_lookup(&mut self.sums, tiers, hashes);
        self.noted(answer)
    }

    /// A line that its reader could not read.
    pub fn unreadable(&mut self) {
        count(&mut self.unreadable);
    }
}

/// The figures.
impl Report {
    pub fn store_sums(&self, s: StoreId) -> Answer<StoreSums> {
        let held = self.radix.store_held_blocks(s)?.into();
        let [brought, room, age, back, removed, bytes, dead] =
            std::array::from_fn(|figure| self.sums[STORES * figure + s]);
        Ok(StoreSums {
            brought,
            room,
            age,
            back,
            removed,
            held,
            bytes,
            dead,
        })
    }

    pub fn lookup_sums(&self) -> LookupSums {
        LookupSums {
            lookups: self.sums[LOOKUPS],
            blocks: self.sums[LOOKUPS + 1],
            bytes: self.sums[LOOKUPS + 2],
        }
    }

    /// Each refusal that came, by number, and how often.
    pub fn refusals(&self) -> impl Iterator<Item = (Refusal, u64)> + '_ {
        self.refused.iter().map(|(why, times)| (*why, *times))
    }

    pub fn unreadable_lines(&self) -> u64 {
        self.unreadable
    }
}

impl fmt::Display for StoreSums {
    fn fmt(&self, f: &mut fmt::Formatter<'_>) -> fmt::Result {
        write!(
            f,
            "in={} room={} age={} back={} removed={} held={} bytes={} dead={}",
            self.brought,
            self.room,
            self.age,
            self.back,
            self.removed,
            self.held,
            self.bytes,
            self.dead,
        )
    }
}

impl fmt::Display for Report {
    fn fmt(&self, f: &mut fmt::Formatter<'_>) -> fmt::Result {
        for (s, (capacity, policy)) in self.stores.iter().enumerate() {
            let policy = match policy {
                EvictionPolicy::Fifo => "fifo",
                EvictionPolicy::Refresh => "refresh",
            };
            let sums = self.store_sums(s).expect("a store of the set-up");
            writeln!(f, "store {s} cap={capacity} pol={policy} {sums}")?;
        }
        let LookupSums {
            lookups,
            blocks,
            bytes,
        } = self.lookup_sums();
        writeln!(f, "lookups {lookups} blocks {blocks} bytes {bytes}")?;
        for (why, times) in self.refusals() {
            writeln!(f, "refused {} {times}", why.number())?;
        }
        writeln!(f, "unreadable {}", self.unreadable)
    }
}

#[cfg(test)]
mod tests {
    use super::*;

    const LIST: [u64; 5] = [11, 12, 13, 14, 15];

    fn span(start: u32, end: u32) -> Span {
        Span {
            node: 1,
            start,
            end,
        }
    }

    /// Store 0 holds four of the list's five blocks, store 1 none ever.
    fn small() -> Report {
        let stores = [(4, EvictionPolicy::Refresh), (0, EvictionPolicy::Fifo)];
        let mut report = Report::new(|k| 100 * k as u64, &stores).unwrap();
        report.insert(&LIST).unwrap();
        report.store_insert(0, span(0, 4), Some(7), 10.0).unwrap();
        report.sums = [0; LOOKUPS + 3];
        report
    }

    type Call = fn(&mut Report) -> Answer<()>;

    /// A call of each kind, and what it adds to which of the sums.
    const CALLS: [(Call, &[(usize, u64)]); 5] = [
        (
            |r| r.store_insert(0, span(0, 5), None, 20.0).map(|_| ()),
            &[(0, 1), (8, 1), (40, 100), (48, 100)],
        ),
        (
            |r| r.store_insert(1, span(0, 5), None, 20.0).map(|_| ()),
            &[(1, 0), (25, 5), (41, 500), (49, 0)],
        ),
        (
            |r| r.store_expire(0, 40.0, 20.0).map(|_| ()),
            &[(16, 4), (40, 400), (48, 400)],
        ),
        (|r| r.store_remove(0, span(1, 3)).map(|_| ()), &[(32, 2)]),
        (
            |r| r.lookup(&[0], &LIST).map(|_| ()),
            &[(56, 1), (57, 4), (58, 400)],
        ),
    ];

    /// Each sum of each call comes to the limit; one more, and the call is
    /// refused with nothing changed.
    #[test]
    fn each_sum_up_to_the_limit() {
        for (call, adds) in CALLS {
            for (place, amount) in adds {
                let mut report = small();
                report.sums[*place] = LIMIT - amount;
                let mut sums = report.sums;
                adds.iter().for_each(|(place, more)| sums[*place] += more);
                assert_eq!(call(&mut report), Ok(()));
                assert_eq!(report.sums[*place], LIMIT);
                assert!(report.sums == sums, "place {place}");

                let mut report = small();
                report.sums[*place] = LIMIT - amount + 1;
                let sums = report.sums;
                let pools = report.radix.pools.clone();
                let lists = report.radix.lists.clone();
                assert_eq!(call(&mut report), Err(Refusal::SumPastLimit));
                assert!(report.sums == sums, "place {place}");
                assert!(report.radix.pools == pools, "place {place}");
                assert!(report.radix.lists == lists, "place {place}");
                assert!(report.radix.sound_state());
                let times: Vec<_> = report.refusals().collect();
                assert_eq!(times, [(Refusal::SumPastLimit, 1)]);
            }
        }
    }

    /// A sum that the call does not add to may stand anywhere.
    #[test]
    fn other_sums_are_not_looked_at() {
        for (call, adds) in CALLS {
            let mut report = small();
            report.sums = [u64::MAX; LOOKUPS + 3];
            adds.iter().for_each(|(place, _)| report.sums[*place] = 0);
            assert_eq!(call(&mut report), Ok(()));
            for (place, sum) in report.sums.iter().enumerate() {
                let added = adds.iter().find(|a| a.0 == place);
                assert_eq!(*sum, added.map_or(u64::MAX, |a| a.1));
            }
        }
    }

    #[test]
    fn counts_stay_at_the_limit() {
        let mut report = small();
        report.refused.insert(Refusal::NoSuchStore, LIMIT - 1);
        report.unreadable = LIMIT - 1;
        for _ in 0..3 {
            assert!(report.store_expire(9, 0.0, 0.0).is_err());
            report.unreadable();
            let times: Vec<_> = report.refusals().collect();
            assert_eq!(times, [(Refusal::NoSuchStore, LIMIT)]);
            assert_eq!(report.unreadable_lines(), LIMIT);
        }
    }
}
