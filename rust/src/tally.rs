//! The exported functions that keep sums, each once: as those of `calls` with
//! the state known to be sound, and what they answer added to the sums.

use crate::radix::Radix;
use crate::raw::call;
use crate::refusal::{accepted, Answer};
use crate::types::*;

/// Seven figures of each of eight stores, then three of the lookups.
pub(crate) const STORES: usize = 8;
pub(crate) const LOOKUPS: usize = 7 * STORES;
pub(crate) type Sums = [u64; LOOKUPS + 3];

/// No sum passes it.
pub(crate) const LIMIT: u64 = i64::MAX as u64;

impl Radix {
    pub(crate) fn tally_insert(
        &mut self,
        sums: &mut Sums,
        s: StoreId,
        span: Span,
        write_id: Option<u32>,
        now: f64,
    ) -> Answer<(Vec<TierEvicted>, u32)> {
        accepted(call!(
            self.scorebeetle_tally_insert
                [out_node, out_start, out_end, out_write, out_bytes, out_dead; sums] answer,
            s,
            span.node as usize,
            span.start as usize,
            span.end as usize,
            now,
            write_id.unwrap_or(0),
        ))?;
        Ok((self.lists.given_out(), self.lists.blocks()))
    }

    pub(crate) fn tally_expire(
        &mut self,
        sums: &mut Sums,
        s: StoreId,
        now: f64,
        seconds: f64,
    ) -> Answer<Vec<TierEvicted>> {
        accepted(call!(
            self.scorebeetle_tally_expire
                [out_node, out_start, out_end, out_write, out_bytes, out_dead; sums] answer,
            s,
            now,
            seconds,
        ))?;
        Ok(self.lists.given_out())
    }

    pub(crate) fn tally_remove(
        &mut self,
        sums: &mut Sums,
        s: StoreId,
        span: Span,
    ) -> Answer<(Vec<u32>, u32)> {
        accepted(call!(
            self.scorebeetle_tally_remove[writes; sums] answer,
            s,
            span.node as usize,
            span.start as usize,
            span.end as usize,
        ))?;
        Ok((self.lists.writes(), self.lists.blocks()))
    }

    pub(crate) fn tally_lookup(
        &mut self,
        sums: &mut Sums,
        tiers: &[StoreId],
        hashes: &[u64],
    ) -> Answer<HbmLookup> {
        accepted(call!(
            self.scorebeetle_tally_lookup
                [path_node, path_len, span_tier, span_node, span_start, span_end; sums] answer,
            tiers.as_ptr(),
            tiers.len(),
            hashes.as_ptr(),
            hashes.len(),
        ))?;
        Ok(self.lists.looked_up(tiers))
    }
}
