//! Who calls.

use crate::raw::{DESK, FOYER};
use crate::{FOYER_SLOT, FOYER_WORDS, LIST_WORDS, SLOTS};
use std::ops::Range;

/// Who makes a call that reads: the desk at the counter, or the display in the foyer. Both read one store, each in slots of
/// its own, and the foyer in shorter lists.
///
/// ```
/// use cechnuol::{Caller, Entry, Refusal, Store};
///
/// let mut store = Store::new(4, 16)?;
/// store.issue(Caller::Foyer, 6, &mut [Entry::ask(5)])?;
/// assert_eq!(store.release(Caller::Desk, 6), Err(Refusal::OthersSlot));
/// assert_eq!(store.look_up(Caller::Desk, 5, 0), store.look_up(Caller::Foyer, 5, 0));
/// # Ok::<(), Refusal>(())
/// ```
#[derive(Clone, Copy, Debug, PartialEq, Eq, Hash)]
pub enum Caller {
    /// The desk: slots 0 to 5, and lists of up to 64 entries.
    Desk,
    /// The foyer: slots 6 and 7, and lists of up to 16 entries.
    Foyer,
}

impl Caller {
    /// The number that the library takes for the caller.
    #[inline]
    pub const fn number(self) -> u32 {
        match self {
            Caller::Desk => DESK,
            Caller::Foyer => FOYER,
        }
    }

    /// Whose a slot is, where the program itself has to close it.
    ///
    /// ```
    /// use cechnuol::Caller;
    ///
    /// assert_eq!(Caller::of_slot(5), Caller::Desk);
    /// assert_eq!(Caller::of_slot(6), Caller::Foyer);
    /// ```
    pub const fn of_slot(slot: usize) -> Caller {
        if slot < FOYER_SLOT {
            Caller::Desk
        } else {
            Caller::Foyer
        }
    }

    /// The caller's slots. A call that names another's is [`Refusal::OthersSlot`](crate::Refusal::OthersSlot).
    pub const fn slots(self) -> Range<usize> {
        match self {
            Caller::Desk => 0..FOYER_SLOT,
            Caller::Foyer => FOYER_SLOT..SLOTS,
        }
    }

    /// The most entries of a list that the caller issues and of a read set that it forwards. A longer one of the foyer is
    /// [`Refusal::LongList`](crate::Refusal::LongList), and one of more than 64
    /// [`Refusal::BadList`](crate::Refusal::BadList) from both.
    pub const fn list_words(self) -> usize {
        match self {
            Caller::Desk => LIST_WORDS,
            Caller::Foyer => FOYER_WORDS,
        }
    }
}
