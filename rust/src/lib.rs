//! The block tree and its stores, over the proved static library. The names
//! are those of the source's `Radix`; a call that document 01 refuses returns
//! its number as a [`Refusal`] and changes nothing.
//!
//! [`Radix`] owns the pools. It sets them up once and changes them only by the
//! library's functions, each of which keeps the state sound, so that no call
//! has to test it. [`Report`] owns a [`Radix`] and keeps sums of its answers.

mod calls;
mod checked;
mod counters;
mod lists;
mod pools;
mod radix;
mod raw;
mod refusal;
mod report;
mod tally;
mod types;

pub use radix::Radix;
pub use refusal::{Answer, Refusal};
pub use report::{LookupSums, Report, StoreSums};
pub use types::*;
