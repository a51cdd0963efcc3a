//! Each exported function once, with the answer as the type that the public
//! methods give. `known` says that the state is known to be sound.

use crate::counters::Counter;
use crate::lists::ANSWER;
use crate::radix::Radix;
use crate::raw::call;
use crate::refusal::{accepted, Answer};
use crate::types::*;

impl Radix {
    pub(crate) fn call_resolve(&mut self, known: bool, hashes: &[u64]) -> Answer<Path> {
        accepted(call!(
            self.scorebeetle_resolve[path_node, path_len] answer,
            known,
            hashes.as_ptr(),
            hashes.len(),
        ))?;
        Ok(self.lists.path())
    }

    pub(crate) fn call_insert(
        &mut self,
        known: bool,
        hashes: &[u64],
    ) -> Answer<(Path, Option<Cut>)> {
        accepted(call!(
            self.scorebeetle_insert[path_node, path_len] answer,
            known,
            hashes.as_ptr(),
            hashes.len(),
        ))?;
        Ok((self.lists.path(), self.lists.cut()))
    }

    pub(crate) fn call_store_insert(
        &mut self,
        known: bool,
        s: StoreId,
        span: Span,
        write_id: Option<u32>,
        now: f64,
    ) -> Answer<(Vec<TierEvicted>, u32)> {
        accepted(call!(
            self.scorebeetle_store_insert
                [out_node, out_start, out_end, out_write, out_bytes, out_dead] answer,
            known,
            s,
            span.node as usize,
            span.start as usize,
            span.end as usize,
            now,
            write_id.unwrap_or(0),
        ))?;
        Ok((self.lists.given_out(), self.lists.blocks()))
    }

    pub(crate) fn call_store_used(
        &mut self,
        known: bool,
        s: StoreId,
        spans: &[Span],
        now: f64,
        read: bool,
    ) -> Answer<u64> {
        self.spans.read(spans);
        accepted(call!(
            self.scorebeetle_store_used[] answer,
            known,
            s,
            self.spans.node.as_ptr(),
            self.spans.node.len(),
            self.spans.start.as_ptr(),
            self.spans.start.len(),
            self.spans.end.as_ptr(),
            self.spans.end.len(),
            now,
            read,
        ))?;
        Ok(self.lists.answer[0])
    }

    pub(crate) fn call_store_remove(
        &mut self,
        known: bool,
        s: StoreId,
        span: Span,
    ) -> Answer<(Vec<u32>, u32)> {
        accepted(call!(
            self.scorebeetle_store_remove[writes] answer,
            known,
            s,
            span.node as usize,
            span.start as usize,
            span.end as usize,
        ))?;
        Ok((self.lists.writes(), self.lists.blocks()))
    }

    pub(crate) fn call_store_expire(
        &mut self,
        known: bool,
        s: StoreId,
        now: f64,
        seconds: f64,
    ) -> Answer<Vec<TierEvicted>> {
        accepted(call!(
            self.scorebeetle_store_expire
                [out_node, out_start, out_end, out_write, out_bytes, out_dead] answer,
            known,
            s,
            now,
            seconds,
        ))?;
        Ok(self.lists.given_out())
    }

    pub(crate) fn call_pin_source(
        &mut self,
        known: bool,
        source: TierSource,
        span: Span,
    ) -> Answer<()> {
        let TierSource::Store(s) = source;
        accepted(call!(
            self.scorebeetle_pin_source,
            known,
            s,
            span.node as usize,
            span.start as usize,
            span.end as usize,
        ))
    }

    pub(crate) fn call_unpin_source(
        &mut self,
        known: bool,
        source: TierSource,
        span: Span,
    ) -> Answer<()> {
        let TierSource::Store(s) = source;
        accepted(call!(
            self.scorebeetle_unpin_source,
            known,
            s,
            span.node as usize,
            span.start as usize,
            span.end as usize,
        ))
    }

    pub(crate) fn call_lookup(
        &mut self,
        known: bool,
        tiers: &[StoreId],
        hashes: &[u64],
    ) -> Answer<HbmLookup> {
        accepted(call!(
            self.scorebeetle_lookup
                [path_node, path_len, span_tier, span_node, span_start, span_end] answer,
            known,
            tiers.as_ptr(),
            tiers.len(),
            hashes.as_ptr(),
            hashes.len(),
        ))?;
        Ok(self.lists.looked_up(tiers))
    }

    pub(crate) fn call_counter(&self, known: bool, which: Counter, s: StoreId) -> Answer<u64> {
        let mut answer = [0; ANSWER];
        accepted(call!(
            shared self.scorebeetle_counter,
            answer.as_mut_ptr(),
            known,
            which as u8,
            s,
        ))?;
        Ok(answer[0])
    }
}
