//! The counters, which the library reads from the books.

use crate::radix::Radix;
use crate::refusal::Answer;
use crate::types::*;

/// The counters by the library's numbers.
#[derive(Clone, Copy)]
#[repr(u8)]
pub(crate) enum Counter {
    Held = 0,
    Capacity = 1,
    Pinned = 2,
    Available = 3,
    Version = 4,
    Stalls = 5,
}

impl Radix {
    pub fn store_held_blocks(&self, s: StoreId) -> Answer<u32> {
        Ok(self.call_counter(true, Counter::Held, s)? as u32)
    }

    pub fn store_capacity_blocks(&self, s: StoreId) -> Answer<u32> {
        Ok(self.call_counter(true, Counter::Capacity, s)? as u32)
    }

    pub fn store_pinned_blocks(&self, s: StoreId) -> Answer<u32> {
        Ok(self.call_counter(true, Counter::Pinned, s)? as u32)
    }

    /// Capacity less pinned, or 0.
    pub fn store_available_for_stage(&self, s: StoreId) -> Answer<u64> {
        self.call_counter(true, Counter::Available, s)
    }

    pub fn source_version(&self, source: TierSource) -> Answer<u64> {
        let TierSource::Store(s) = source;
        self.call_counter(true, Counter::Version, s)
    }

    pub fn pin_stalls(&self) -> u64 {
        self.call_counter(true, Counter::Stalls, 0)
            .expect("a sound state has this counter")
    }
}
