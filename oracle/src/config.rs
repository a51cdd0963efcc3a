//! Stand-ins for the two config enums. radix.rs names `Fifo {}` and
//! `Outlook {}`; `Lru {}` stands for every policy that refreshes.

#[allow(dead_code)]
#[derive(Debug, Clone, Copy, PartialEq, Eq)]
pub enum EvictionPolicy {
    Fifo {},
    Lru {},
    Outlook {},
}

#[allow(dead_code)]
#[derive(Debug, Clone, Copy, PartialEq, Eq)]
pub enum HbmEviction {
    Lru {},
    Outlook {},
}
