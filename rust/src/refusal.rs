//! Why a call was refused.

use std::fmt;

/// Document 01's number, and 02's where a call keeps sums.
#[derive(Debug, Clone, Copy, PartialEq, Eq, PartialOrd, Ord)]
#[repr(u8)]
pub enum Refusal {
    NotSound = 1,
    NoSuchStore = 2,
    TooMany = 3,
    NoSuchSpan = 4,
    NotFinite = 5,
    NoNodes = 6,
    NoWords = 7,
    NoRecords = 8,
    NoPins = 9,
    NotPinned = 10,
    NoStamps = 11,
    OutsideTheRules = 12,
    ShortList = 14,
    SumPastLimit = 21,
}

impl Refusal {
    fn numbered(number: u8) -> Self {
        use Refusal::*;
        [
            NotSound,
            NoSuchStore,
            TooMany,
            NoSuchSpan,
            NotFinite,
            NoNodes,
            NoWords,
            NoRecords,
            NoPins,
            NotPinned,
            NoStamps,
            OutsideTheRules,
            ShortList,
            SumPastLimit,
        ]
        .into_iter()
        .find(|r| r.number() == number)
        .expect("the library refuses with a number of document 01 or 02")
    }

    pub fn number(self) -> u8 {
        self as u8
    }
}

impl fmt::Display for Refusal {
    fn fmt(&self, f: &mut fmt::Formatter<'_>) -> fmt::Result {
        write!(f, "refused {} ({self:?})", self.number())
    }
}

impl std::error::Error for Refusal {}

pub type Answer<T> = Result<T, Refusal>;

/// The number that an exported function gives: 0, or a refusal's.
pub(crate) fn accepted(number: u8) -> Answer<()> {
    match number {
        0 => Ok(()),
        n => Err(Refusal::numbered(n)),
    }
}
