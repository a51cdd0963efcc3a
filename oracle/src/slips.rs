//! The slips of document 01 that look right, and the March fault, planted in
//! the Rust so that a comparison can be seen to notice them.

use crate::answer::Answer;
use crate::calls::{rest_of, written, Caller};
use crate::form::Op;
use crate::kv_cache::radix::{peek, plant, HbmLookup, NodeId, Path, Radix, Span};
use crate::kv_cache::radix::{TierSource, TierSpan};

#[derive(Debug, Clone, Copy, PartialEq, Eq)]
pub enum Slip {
    Head,
    AtLeast,
    Nearest,
    UnpinTrims,
    ExpiryPins,
    FreshHead,
    March,
}

use Slip::*;

/// Each slip by its name.
pub const SLIPS: [(&str, Slip); 7] = [
    ("head", Head),
    ("at-least", AtLeast),
    ("nearest-tier", Nearest),
    ("unpin-trims", UnpinTrims),
    ("expiry-tests-pins", ExpiryPins),
    ("fresh-id-on-head", FreshHead),
    ("march", March),
];

/// Gives each block to the first tier that holds it.
fn nearest(radix: &Radix, tiers: &[usize], found: &mut HbmLookup) {
    let mut spans: Vec<TierSpan> = Vec::new();
    for whole in &found.tier_spans {
        let Span { node, start, end } = whole.span;
        for at in start..end {
            let span = Span {
                node,
                start: at,
                end: at + 1,
            };
            let tier = tiers.iter().position(|s| radix.store_holds(*s, span));
            let tier = tier.expect("a tier holds it");
            match spans.last_mut() {
                Some(last) if at > start && last.tier == tier => last.span.end = at + 1,
                _ => spans.push(TierSpan {
                    tier,
                    span,
                    source: TierSource::Store(tiers[tier]),
                }),
            }
        }
    }
    found.tier_blocks.fill(0);
    found.tier_bytes.fill(0);
    for t in &spans {
        found.tier_blocks[t.tier] += t.span.len();
        found.tier_bytes[t.tier] += radix.span_bytes(t.span);
    }
    found.tier_spans = spans;
}

impl Slip {
    /// An insert that cuts where `cut` says.
    pub fn insert(self, radix: &mut Radix, hashes: &[u64], cut: Option<(NodeId, u32)>) -> Path {
        let fresh = peek::next_id(radix);
        let path = radix.insert(hashes);
        if let (FreshHead, Some((head, k))) = (self, cut) {
            let tail = rest_of(radix, head);
            plant::new_id_on_heads(radix, head, k, tail, fresh);
        }
        path
    }

    /// Every call but set-up, insert, removal and state.
    pub fn call<N>(self, caller: &mut Caller<'_, N>, op: &Op, spans: &[Span]) -> Answer
    where
        N: Fn(NodeId) -> u32,
    {
        match (self, op) {
            (Head | March, Op::Bring { .. }) => self.bring(caller, op, spans[0]),
            (AtLeast | ExpiryPins, Op::Expire { .. }) => self.expire(caller, op),
            (UnpinTrims, Op::Unpin(store, _)) => {
                let answer = caller.call(op, spans);
                caller.radix.trim_store_after_unpin(*store);
                answer
            }
            (Nearest, Op::Lookup { tiers, hashes }) => {
                let mut found = caller.look(tiers, hashes);
                nearest(caller.radix, tiers, &mut found);
                caller.found(found)
            }
            _ => caller.call(op, spans),
        }
    }

    fn bring<N>(self, caller: &mut Caller<'_, N>, op: &Op, span: Span) -> Answer
    where
        N: Fn(NodeId) -> u32,
    {
        let Op::Bring {
            store, time, write, ..
        } = op
        else {
            unreachable!("only for a bring");
        };
        let give = match self {
            Head => plant::head,
            _ => plant::rounded,
        };
        let write = written(*write);
        let out = plant::bring(caller.radix, *store, span, write, *time, give);
        caller.given(out)
    }

    fn expire<N>(self, caller: &mut Caller<'_, N>, op: &Op) -> Answer
    where
        N: Fn(NodeId) -> u32,
    {
        let Op::Expire {
            store,
            now,
            seconds,
        } = *op
        else {
            unreachable!("only for an expire");
        };
        if self == AtLeast {
            // Above the number before it is at least it.
            return caller.expire(store, now, seconds.next_down());
        }
        let out = plant::expire_unpinned(caller.radix, store, now, seconds);
        caller.given(out)
    }
}
