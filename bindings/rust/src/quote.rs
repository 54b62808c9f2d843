//! What a lookup answers.

use crate::raw::BY_TABLE;
use std::fmt;

/// What a lookup answers: the price of an offer at a state, or that it has none, and how fresh that is.
///
/// ```
/// use cechnuol::{Caller, Entry, Quote, Refusal, Since, Store};
///
/// let mut store = Store::new(4, 16)?;
/// store.commit(&[Entry::put(5, 1200)])?;
/// store.commit(&[Entry::put(9, 700)])?;
/// let quote = store.look_up(Caller::Desk, 5, 2)?;
/// assert_eq!(quote, Quote { price: Some(1200), since: Since::State(1) });
/// assert_eq!(quote.to_string(), "price 1200, since state 1");
/// # Ok::<(), Refusal>(())
/// ```
#[derive(Clone, Copy, Debug, PartialEq, Eq, Hash)]
pub struct Quote {
    /// The price, if there is one. Price 0 is a price.
    pub price: Option<u32>,
    /// The state that named the offer last, or that the table answered. A state may stand beside no price: a step that
    /// removes a price names its offer.
    pub since: Since,
}

/// How fresh a quote is: which step above the checkpoint, and up to the state that is looked up, was the last to name the
/// offer; or that none did, so that the table answered.
///
/// A step names the offers of its list, whether it puts a price, be it the one that was there, or removes it. A flush forgets
/// the numbers up to the new checkpoint, even where an open slot still holds their steps, and after a load or a restart the
/// table answers for every offer. So two stores that are flushed differently may differ in this beside the same price.
///
/// ```
/// use cechnuol::{Caller, Entry, Refusal, Since, Store};
///
/// let mut store = Store::new(4, 16)?;
/// store.commit(&[Entry::put(5, 1200)])?;
/// store.commit(&[Entry::remove(9)])?;
/// let since = |store: &Store, offer| store.look_up(Caller::Desk, offer, 2).map(|quote| quote.since);
/// assert_eq!(since(&store, 5), Ok(Since::State(1)));
/// assert_eq!(since(&store, 9), Ok(Since::State(2)));
/// assert_eq!(since(&store, 11), Ok(Since::Table));
/// store.flush(1)?;
/// assert_eq!(since(&store, 5), Ok(Since::Table));
/// assert_eq!(since(&store, 9), Ok(Since::State(2)));
/// # Ok::<(), Refusal>(())
/// ```
#[derive(Clone, Copy, Debug, PartialEq, Eq, Hash)]
pub enum Since {
    /// The state to which the last step leads that names the offer.
    State(u32),
    /// No step names the offer: the table answered. It does so for an offer that is nowhere, too.
    Table,
}

impl Since {
    /// What the word says that a lookup gives: [`BY_TABLE`], or the number of a state, which has 32 bits.
    #[inline]
    pub(crate) const fn of_word(word: u64) -> Since {
        match word {
            BY_TABLE => Since::Table,
            state => Since::State(state as u32),
        }
    }
}

/// `price 1200, since state 3` or `none, by the table`.
impl fmt::Display for Quote {
    fn fmt(&self, f: &mut fmt::Formatter<'_>) -> fmt::Result {
        match self.price {
            Some(price) => write!(f, "price {price}, {}", self.since),
            None => write!(f, "none, {}", self.since),
        }
    }
}

/// `since state 3` or `by the table`.
impl fmt::Display for Since {
    fn fmt(&self, f: &mut fmt::Formatter<'_>) -> fmt::Result {
        match self {
            Since::State(state) => write!(f, "since state {state}"),
            Since::Table => f.write_str("by the table"),
        }
    }
}
