//! Who calls: the counter's desk, or the display in the foyer.

use crate::head::SLOTS;
use crate::word::LIST_WORDS;
use std::fmt;
use std::ops::Range;

/// Who makes an issue, a forward, a release or a lookup.
#[derive(Clone, Copy, Debug, PartialEq, Eq, PartialOrd, Ord)]
pub enum Caller {
    Desk,
    Foyer,
}

/// The foyer's first slot; those below it are the desk's.
const FOYER_SLOT: usize = 6;

/// The most words of a list that the foyer issues or forwards.
pub const FOYER_WORDS: usize = 16;

impl Caller {
    /// The caller's slots. One above 7 is nobody's.
    pub fn slots(self) -> Range<usize> {
        match self {
            Caller::Desk => 0..FOYER_SLOT,
            Caller::Foyer => FOYER_SLOT..SLOTS,
        }
    }

    /// The most words of a list that the caller issues or forwards.
    pub fn list_words(self) -> usize {
        match self {
            Caller::Desk => LIST_WORDS,
            Caller::Foyer => FOYER_WORDS,
        }
    }

    /// The other one.
    pub fn other(self) -> Caller {
        match self {
            Caller::Desk => Caller::Foyer,
            Caller::Foyer => Caller::Desk,
        }
    }
}

/// The caller's word in a script.
impl fmt::Display for Caller {
    fn fmt(&self, f: &mut fmt::Formatter<'_>) -> fmt::Result {
        f.write_str(match self {
            Caller::Desk => "desk",
            Caller::Foyer => "foyer",
        })
    }
}
