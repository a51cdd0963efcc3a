//! The pools: 01's sizes, one array for each column.

use std::alloc::{alloc_zeroed, handle_alloc_error, Layout};

pub const NODES: usize = 256;
pub const WORDS: usize = 4096;
pub const RECORDS: usize = 1024;
pub const PINS: usize = 256;
pub const MARKS: usize = 2048;
pub const TABLE: usize = 1025;
/// The small numbers: five of the whole, then those of each store; 69 are used
/// today, and any pool may be longer.
pub const BOOKS: usize = 256;

#[derive(Clone, PartialEq)]
pub struct Pools {
    pub parent: [usize; NODES],
    pub depth: [usize; NODES],
    pub len: [usize; NODES],
    pub run: [usize; NODES],
    pub words: [u64; WORDS],
    pub node: [usize; RECORDS],
    pub start: [usize; RECORDS],
    pub end: [usize; RECORDS],
    pub id: [u64; RECORDS],
    pub stamp: [u64; RECORDS],
    pub touched: [f64; RECORDS],
    pub write: [u32; RECORDS],
    pub pin_node: [usize; PINS],
    pub pin_start: [usize; PINS],
    pub pin_end: [usize; PINS],
    pub pin_count: [u64; PINS],
    pub marks: [usize; MARKS],
    pub bytes: [u64; TABLE],
    /// Only the library reads them.
    pub books: [u64; BOOKS],
}

/// A value of zeros, without a copy of it on the stack first.
///
/// # Safety
/// Bytes of 0 are a value of `T`.
pub unsafe fn zeros<T>() -> Box<T> {
    let layout = Layout::new::<T>();
    let place = alloc_zeroed(layout) as *mut T;
    if place.is_null() {
        handle_alloc_error(layout);
    }
    Box::from_raw(place)
}

impl Pools {
    pub fn empty() -> Box<Self> {
        // SAFETY: every field is an array of numbers.
        unsafe { zeros() }
    }
}
