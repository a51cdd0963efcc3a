//! The calls with soundness known.

use crate::lists::{Lists, Spans};
use crate::pools::{Pools, TABLE};
use crate::raw::call;
use crate::refusal::{accepted, Answer};
use crate::types::*;

pub struct Radix {
    pub(crate) pools: Box<Pools>,
    pub(crate) lists: Box<Lists>,
    pub(crate) spans: Spans,
}

impl Radix {
    /// A tree with the root only, and a store for each capacity and policy.
    /// Block `k` of a path starts at byte `bytes(k)`.
    pub fn new(bytes: impl Fn(u32) -> u64, stores: &[(u32, EvictionPolicy)]) -> Answer<Self> {
        let mut radix = Self {
            pools: Pools::empty(),
            lists: Lists::empty(),
            spans: Spans::default(),
        };
        radix.set_up(bytes, stores)?;
        Ok(radix)
    }

    /// Begins anew, on the same memory.
    pub fn set_up(
        &mut self,
        bytes: impl Fn(u32) -> u64,
        stores: &[(u32, EvictionPolicy)],
    ) -> Answer<()> {
        let table: [u64; TABLE] = std::array::from_fn(|k| bytes(k as u32));
        let capacity: Vec<u64> = stores.iter().map(|s| s.0 as u64).collect();
        let refreshes = stores.iter().map(|s| s.1 == EvictionPolicy::Refresh);
        let refreshes: Vec<bool> = refreshes.collect();
        accepted(call!(
            self.scorebeetle_set_up,
            table.as_ptr(),
            table.len(),
            capacity.as_ptr(),
            capacity.len(),
            refreshes.as_ptr(),
            refreshes.len(),
        ))
    }

    /// How far the tree has a list of hashes.
    pub fn resolve(&mut self, hashes: &[u64]) -> Answer<Path> {
        self.call_resolve(true, hashes)
    }

    /// A list of hashes into the tree; its path.
    pub fn insert(&mut self, hashes: &[u64]) -> Answer<Path> {
        Ok(self.insert_cut(hashes)?.0)
    }

    /// The same, with the cut where a node was cut.
    pub fn insert_cut(&mut self, hashes: &[u64]) -> Answer<(Path, Option<Cut>)> {
        self.call_insert(true, hashes)
    }

    /// A span into store `s`; what it gave out for it. No write is `None` or 0.
    pub fn store_insert(
        &mut self,
        s: StoreId,
        span: Span,
        write_id: Option<u32>,
        now: f64,
    ) -> Answer<Vec<TierEvicted>> {
        Ok(self.store_insert_blocks(s, span, write_id, now)?.0)
    }

    /// The same, with how many blocks came in: those that weren't held, none
    /// where the capacity is 0.
    pub fn store_insert_blocks(
        &mut self,
        s: StoreId,
        span: Span,
        write_id: Option<u32>,
        now: f64,
    ) -> Answer<(Vec<TierEvicted>, u32)> {
        self.call_store_insert(true, s, span, write_id, now)
    }

    /// The spans were read from store `s`: they are marked read, and refreshed
    /// where the policy does so. The bytes of what was held of them.
    pub fn store_promoted(&mut self, s: StoreId, spans: &[Span], now: f64) -> Answer<u64> {
        self.call_store_used(true, s, spans, now, true)
    }

    /// The spans were used elsewhere: they are refreshed, with nothing read.
    pub fn store_touched(&mut self, s: StoreId, spans: &[Span], now: f64) -> Answer<()> {
        self.call_store_used(true, s, spans, now, false).map(|_| ())
    }

    /// A span out of store `s`; the writes of the ranges that it overlapped.
    pub fn store_remove(&mut self, s: StoreId, span: Span) -> Answer<Vec<u32>> {
        Ok(self.store_remove_blocks(s, span)?.0)
    }

    /// The same, with how many blocks went.
    pub fn store_remove_blocks(&mut self, s: StoreId, span: Span) -> Answer<(Vec<u32>, u32)> {
        self.call_store_remove(true, s, span)
    }

    /// What is older than `seconds` leaves store `s`.
    pub fn store_expire(&mut self, s: StoreId, now: f64, seconds: f64) -> Answer<Vec<TierEvicted>> {
        self.call_store_expire(true, s, now, seconds)
    }

    pub fn pin_source(&mut self, source: TierSource, span: Span) -> Answer<()> {
        self.call_pin_source(true, source, span)
    }

    /// It never trims, so nothing is given out.
    pub fn unpin_source(&mut self, source: TierSource, span: Span) -> Answer<()> {
        self.call_unpin_source(true, source, span)
    }

    /// What the stores of a list hold of the hashes: at each block the first
    /// that has it, up to the first block that none has.
    pub fn lookup(&mut self, tiers: &[StoreId], hashes: &[u64]) -> Answer<HbmLookup> {
        self.call_lookup(true, tiers, hashes)
    }

    /// The whole sound-state test. It holds after every call.
    pub fn sound_state(&mut self) -> bool {
        call!(shared self.scorebeetle_sound_state)
    }
}
