//! The entry word.

use crate::raw;
use std::fmt;

/// The bit of the kind: 1 for an entry that has a price.
const KIND: u64 = 1 << 63;
/// The lowest 31 bits of a number: an offer.
const OFFER_MASK: u32 = 0x7FFF_FFFF;

/// An offer with its price, or with none: a word of a list, of a read set or of the table.
///
/// In a list that is committed an entry with a price puts it, and one without removes the offer. In a read set an entry
/// without a price asks for the offer before the issue, and shows after it that there is none.
///
/// It is 64 bits, most significant first: kind (1 where there is a price), offer of 31 bits, price of 32 bits, which is 0
/// where there is none. Price 0 is a price. Every word is a value of this type, and the library refuses a list that has
/// one which breaks that rule ([`Refusal::BadList`](crate::Refusal::BadList)).
///
/// Entries have no order of their own. A list is sorted by its offers:
///
/// ```
/// use cechnuol::Entry;
///
/// let mut list = [Entry::put(9, 700), Entry::remove(5)];
/// list.sort_unstable_by_key(|entry| entry.offer());
/// assert_eq!(list, [Entry::remove(5), Entry::put(9, 700)]);
/// ```
#[derive(Clone, Copy, PartialEq, Eq, Hash)]
#[repr(transparent)]
pub struct Entry(u64);

impl Entry {
    /// The entry that puts an offer at a price. An offer of 2^31 or more is not refused: the lowest 31 bits of it are taken,
    /// and that is another offer. Test it before.
    ///
    /// ```
    /// use cechnuol::Entry;
    ///
    /// assert_eq!(Entry::put(5, 1200).word(), 0x80000005_000004B0);
    /// ```
    #[inline]
    pub const fn put(offer: u32, price: u32) -> Entry {
        Entry(KIND | Entry::remove(offer).0 | price as u64)
    }

    /// The entry that removes an offer. Of an offer of 2^31 or more the lowest 31 bits are taken.
    #[inline]
    pub const fn remove(offer: u32) -> Entry {
        Entry(((offer & OFFER_MASK) as u64) << 32)
    }

    /// The entry that asks for an offer in an issue: the word that elsewhere removes it. Of an offer of 2^31 or more the
    /// lowest 31 bits are taken.
    #[inline]
    pub const fn ask(offer: u32) -> Entry {
        Entry::remove(offer)
    }

    /// The offer.
    #[inline]
    pub const fn offer(self) -> u32 {
        (self.0 >> 32) as u32 & OFFER_MASK
    }

    /// The price, if there is one.
    #[inline]
    pub const fn price(self) -> Option<u32> {
        if self.0 & KIND == 0 {
            return None;
        }
        Some(self.0 as u32)
    }

    /// The entry of a word.
    #[inline]
    pub const fn from_word(word: u64) -> Entry {
        Entry(word)
    }

    /// The word.
    #[inline]
    pub const fn word(self) -> u64 {
        self.0
    }

    /// Words as the entries that they are, without a copy.
    #[inline]
    pub fn from_words(words: &[u64]) -> &[Entry] {
        raw::values(words)
    }

    /// Entries as their words, without a copy.
    #[inline]
    pub fn words(entries: &[Entry]) -> &[u64] {
        raw::words(entries)
    }
}

/// `offer 5 price 1200` or `offer 9 none`. A price field that should be 0 is shown too: `offer 9 none 7`.
impl fmt::Display for Entry {
    fn fmt(&self, f: &mut fmt::Formatter<'_>) -> fmt::Result {
        write!(f, "offer {} ", self.offer())?;
        match (self.price(), self.0 as u32) {
            (Some(price), _) => write!(f, "price {price}"),
            (None, 0) => f.write_str("none"),
            (None, rest) => write!(f, "none {rest}"),
        }
    }
}

impl fmt::Debug for Entry {
    fn fmt(&self, f: &mut fmt::Formatter<'_>) -> fmt::Result {
        write!(f, "Entry({self})")
    }
}
