//! Who calls: the desk at the counter, or the display in the foyer.

use super::head::SLOTS;
use super::word::LIST_WORDS;
use std::ops::Range;

/// The foyer's first slot, and the most words of a list that it issues or forwards.
const FOYER_SLOT: usize = 6;
const FOYER_WORDS: usize = 16;

/// Who makes a call that reads.
#[derive(Clone, Copy, Debug, PartialEq, Eq)]
pub enum Caller {
    Desk,
    Foyer,
}

impl Caller {
    /// The caller of a number of the C interface: 0 is the desk, any other the foyer.
    pub fn of_number(number: u32) -> Caller {
        match number {
            0 => Caller::Desk,
            _ => Caller::Foyer,
        }
    }

    /// The caller's slots.
    pub fn slots(self) -> Range<usize> {
        match self {
            Caller::Desk => 0..FOYER_SLOT,
            Caller::Foyer => FOYER_SLOT..SLOTS,
        }
    }

    /// The most words of a list that the caller issues or forwards.
    pub fn list_words(self) -> usize {
        match self {
            Caller::Desk => LIST_WORDS,
            Caller::Foyer => FOYER_WORDS,
        }
    }
}
