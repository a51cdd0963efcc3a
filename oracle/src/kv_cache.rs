//! The place that radix.rs expects: its own module and its neighbour
//! `free_queue`.

/// Stand-in: no outlook is ever set, so the key is never read.
pub mod free_queue {
    pub fn outlook_key(next_arrival: Option<f64>) -> u64 {
        next_arrival.map_or(0, f64::to_bits)
    }
}

#[allow(warnings)]
#[path = "../../target/oracle/radix.rs"]
pub mod radix;
