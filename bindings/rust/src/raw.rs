//! The functions of the library as they are: over words, and with the code of an answer.
//!
//! [`Store`](crate::Store) is what a program uses. This layer is for one that has its own memory for a store, or that
//! must see each code and every word, those too that no call leaves, as a test of the library must.
//!
//! A call is a method of what it is lent: [`StoreMut`] where it may change the store, [`StoreRef`] where it only reads
//! it. It answers [`OK`], the number of a [`Refusal`](crate::Refusal), or, a lookup alone, [`NO_PRICE`];
//! [`Refusal::check`](crate::Refusal::check) turns a code into a `Result`. Where a call is refused, everything that it
//! was lent is as it came. A price or a count goes to the word that is lent for it, on [`OK`] only; what a lookup gives
//! beside the price, a state or [`BY_TABLE`], goes to its word on [`NO_PRICE`] too.
//!
//! # What C asks of a caller, and why a borrow gives it
//!
//! This is the one module with `unsafe` code. The library takes any content and any length, so what is left to the
//! caller is what every C function asks:
//!
//! - *Each pointer and length name memory of the caller's.* They are those of a slice that is borrowed for the call. A
//!   slice of no words has length 0, and then the library does not look at the pointer.
//! - *Head and tally have all their words.* They are arrays of that size.
//! - *What a call may write does not overlap anything else that it is lent.* It is borrowed by `&mut`.
//! - *Nobody writes meanwhile what a call reads.* It is borrowed by `&` or `&mut`.
//!
//! The library keeps no pointer, calls nothing of the caller's and does not unwind.

use crate::{Entry, Order, HEAD_WORDS, TALLY_WORDS};
use std::slice;

/// The code of a call that is accepted.
pub const OK: u64 = 0;
/// The code of a lookup that finds no price.
pub const NO_PRICE: u64 = 100;
/// What a lookup gives in place of a state where the table answered: a number that no state has.
pub const BY_TABLE: u64 = 1 << 32;

/// The number of the desk as a caller.
pub const DESK: u32 = 0;
/// The number of the foyer as a caller. Any other number but [`DESK`] is the foyer too.
pub const FOYER: u32 = 1;

/// The place in the head of the number of table words in use.
pub const USED: usize = 0;
/// The place in the head of the oldest state.
pub const OLDEST: usize = 1;
/// The place in the head of the checkpoint.
pub const CHECKPOINT: usize = 2;
/// The place in the head of the tip.
pub const TIP: usize = 3;
/// The first of the head's 8 words that say which slots are open: 1 for one that is, else 0.
pub const TAKEN: usize = 4;
/// The first of the head's 8 words with the checkpoint at the issue of each open slot; a closed one has 0.
pub const ISSUED: usize = 12;
/// The first of the head's 64 words with the end of each held step in the journal; those not in use are 0.
pub const ENDS: usize = 20;
/// The place in the head of the depth: how many steps back from the tip a flush must leave possible.
pub const DEPTH: usize = 84;

/// The place in the tally of the steps committed.
pub const COMMITTED: usize = 0;
/// The place in the tally of the steps rolled back.
pub const ROLLED_BACK: usize = 1;
/// The place in the tally of the steps flushed.
pub const FLUSHED: usize = 2;

/// What a call that may change a store is lent of it.
#[derive(Debug)]
pub struct StoreMut<'a> {
    /// 1 to 8,000 words.
    pub table: &'a mut [u64],
    /// 1 to 4,096 words.
    pub journal: &'a mut [u64],
    /// The head.
    pub head: &'a mut [u64; HEAD_WORDS],
    /// The tally.
    pub tally: &'a mut [u64; TALLY_WORDS],
}

/// What a query is lent of a store: all but the tally, to be read only. Several threads may query one store at once.
#[derive(Clone, Copy, Debug)]
pub struct StoreRef<'a> {
    /// 1 to 8,000 words.
    pub table: &'a [u64],
    /// 1 to 4,096 words.
    pub journal: &'a [u64],
    /// The head.
    pub head: &'a [u64; HEAD_WORDS],
}

/// Declares calls that may change a store, by what they are lent beside it.
macro_rules! declare_calls {
    ($($name:ident($($extra:ident: $kind:ty),*);)*) => {
        extern "C" {
            $(fn $name(
                table: *mut u64, table_words: usize, journal: *mut u64, journal_words: usize,
                head: *mut [u64; HEAD_WORDS], tally: *mut [u64; TALLY_WORDS], $($extra: $kind),*
            ) -> u64;)*
        }
    };
}

/// Declares queries, by what they are lent beside the store.
macro_rules! declare_queries {
    ($($name:ident($($extra:ident: $kind:ty),*);)*) => {
        extern "C" {
            $(fn $name(
                table: *const u64, table_words: usize, journal: *const u64, journal_words: usize,
                head: *const [u64; HEAD_WORDS], $($extra: $kind),*
            ) -> u64;)*
        }
    };
}

declare_calls! {
    cechnuol_clear(depth: u32);
    cechnuol_load(depth: u32, bytes: *const u8, byte_count: usize);
    cechnuol_load_sheet(depth: u32, bytes: *const u8, byte_count: usize);
    cechnuol_restart(bytes: *mut u8, byte_count: usize);
    cechnuol_commit(words: *const u64, word_count: usize);
    cechnuol_roll_back(state: u32);
    cechnuol_flush(state: u32);
    cechnuol_issue(caller: u32, slot: usize, words: *mut u64, word_count: usize);
    cechnuol_forward(caller: u32, slot: usize, state: u32, words: *mut u64, word_count: usize);
    cechnuol_release(caller: u32, slot: usize);
}

declare_queries! {
    cechnuol_write_image(bytes: *mut u8, byte_count: usize, count: *mut u64);
    cechnuol_write_state_image(state: u32, bytes: *mut u8, byte_count: usize, count: *mut u64);
    cechnuol_write_sheet(bytes: *mut u8, byte_count: usize, count: *mut u64);
    cechnuol_write_state_sheet(state: u32, bytes: *mut u8, byte_count: usize, count: *mut u64);
    cechnuol_look_up(caller: u32, offer: u32, state: u32, price: *mut u64, since: *mut u64);
}

extern "C" {
    fn cechnuol_price_batch(
        reads: *const u64,
        read_count: usize,
        orders: *const u64,
        order_count: usize,
        out: *mut u64,
        out_count: usize,
        count: *mut u64,
    ) -> u64;
    fn cechnuol_version() -> u64;
}

/// Makes a call on a store: `call!(store, function, more..)`.
macro_rules! call {
    ($store:ident, $name:ident $(, $extra:expr)*) => {
        // SAFETY: what is lent is borrowed for the call, by `&mut` where it may be written (see the module's words).
        unsafe {
            $name(
                $store.table.as_mut_ptr(), $store.table.len(), $store.journal.as_mut_ptr(), $store.journal.len(),
                $store.head, $store.tally, $($extra),*
            )
        }
    };
}

/// Makes a query of a store: `query!(store, function, more..)`.
macro_rules! query {
    ($store:ident, $name:ident $(, $extra:expr)*) => {
        // SAFETY: what is lent is borrowed for the call, by `&mut` where it may be written (see the module's words).
        unsafe {
            $name(
                $store.table.as_ptr(), $store.table.len(), $store.journal.as_ptr(), $store.journal.len(),
                $store.head, $($extra),*
            )
        }
    };
}

/// The calls, each as [`Store`](crate::Store) has it by the same name. Who calls is a number, [`DESK`] or [`FOYER`].
impl StoreMut<'_> {
    /// Makes the store the empty map, as state 0, with a depth.
    #[inline]
    pub fn clear(self, depth: u32) -> u64 {
        call!(self, cechnuol_clear, depth)
    }

    /// Makes the store the map of an image, with a depth.
    #[inline]
    pub fn load(self, depth: u32, image: &[u8]) -> u64 {
        call!(self, cechnuol_load, depth, image.as_ptr(), image.len())
    }

    /// Makes the store the map of a sheet, with a depth.
    #[inline]
    pub fn load_sheet(self, depth: u32, sheet: &[u8]) -> u64 {
        call!(self, cechnuol_load_sheet, depth, sheet.as_ptr(), sheet.len())
    }

    /// Writes the image of the checkpoint into the bytes and loads it from there, with the depth that the store has.
    #[inline]
    pub fn restart(self, bytes: &mut [u8]) -> u64 {
        call!(self, cechnuol_restart, bytes.as_mut_ptr(), bytes.len())
    }

    /// Appends a list as the state after the tip.
    #[inline]
    pub fn commit(self, list: &[u64]) -> u64 {
        call!(self, cechnuol_commit, list.as_ptr(), list.len())
    }

    /// Makes a state the tip.
    #[inline]
    pub fn roll_back(self, state: u32) -> u64 {
        call!(self, cechnuol_roll_back, state)
    }

    /// Makes a state the checkpoint.
    #[inline]
    pub fn flush(self, state: u32) -> u64 {
        call!(self, cechnuol_flush, state)
    }

    /// Fills a list of asking words from the table, and opens a slot.
    #[inline]
    pub fn issue(self, caller: u32, slot: usize, reads: &mut [u64]) -> u64 {
        call!(self, cechnuol_issue, caller, slot, reads.as_mut_ptr(), reads.len())
    }

    /// Brings a read set forward to a state, and closes its slot.
    #[inline]
    pub fn forward(self, caller: u32, slot: usize, state: u32, reads: &mut [u64]) -> u64 {
        call!(self, cechnuol_forward, caller, slot, state, reads.as_mut_ptr(), reads.len())
    }

    /// Closes a slot.
    #[inline]
    pub fn release(self, caller: u32, slot: usize) -> u64 {
        call!(self, cechnuol_release, caller, slot)
    }
}

/// The queries, each as [`Store`](crate::Store) has it by the same name.
impl StoreRef<'_> {
    /// Writes the image of the tip to the start of the bytes, and its length to the count.
    #[inline]
    pub fn write_image(self, bytes: &mut [u8], count: &mut u64) -> u64 {
        query!(self, cechnuol_write_image, bytes.as_mut_ptr(), bytes.len(), count)
    }

    /// Writes the image of a state to the start of the bytes, and its length to the count.
    #[inline]
    pub fn write_state_image(self, state: u32, bytes: &mut [u8], count: &mut u64) -> u64 {
        query!(self, cechnuol_write_state_image, state, bytes.as_mut_ptr(), bytes.len(), count)
    }

    /// Writes the sheet of the tip to the start of the bytes, and its length to the count.
    #[inline]
    pub fn write_sheet(self, bytes: &mut [u8], count: &mut u64) -> u64 {
        query!(self, cechnuol_write_sheet, bytes.as_mut_ptr(), bytes.len(), count)
    }

    /// Writes the sheet of a state to the start of the bytes, and its length to the count.
    #[inline]
    pub fn write_state_sheet(self, state: u32, bytes: &mut [u8], count: &mut u64) -> u64 {
        query!(self, cechnuol_write_state_sheet, state, bytes.as_mut_ptr(), bytes.len(), count)
    }

    /// Writes an offer's price at a state to the price, where there is one, and to `since` the state to which the last step
    /// above the checkpoint leads that names the offer, or [`BY_TABLE`], whether there is a price or not. Who calls makes no
    /// difference.
    #[inline]
    pub fn look_up(self, caller: u32, offer: u32, state: u32, price: &mut u64, since: &mut u64) -> u64 {
        query!(self, cechnuol_look_up, caller, offer, state, price, since)
    }
}

/// Prices orders on a read set, and writes how many words of `out` it wrote to the count.
#[inline]
pub fn price_batch(reads: &[u64], orders: &[u64], out: &mut [u64], count: &mut u64) -> u64 {
    // SAFETY: what is lent is borrowed for the call, the last two by `&mut`.
    unsafe {
        cechnuol_price_batch(
            reads.as_ptr(),
            reads.len(),
            orders.as_ptr(),
            orders.len(),
            out.as_mut_ptr(),
            out.len(),
            count,
        )
    }
}

/// The version of the library, as a number.
#[inline]
pub fn version() -> u64 {
    // SAFETY: nothing is lent.
    unsafe { cechnuol_version() }
}

/// A type that is one word of 64 bits, of which every word is a value.
///
/// # Safety
///
/// The type is `#[repr(transparent)]` over `u64`.
pub(crate) unsafe trait Word {}

// SAFETY: both are `#[repr(transparent)]` over `u64`.
unsafe impl Word for Entry {}
unsafe impl Word for Order {}

/// The words that these values are.
#[inline]
pub(crate) fn words<W: Word>(values: &[W]) -> &[u64] {
    // SAFETY: each value is one word (`Word`), and the words are borrowed as long as the values are.
    unsafe { slice::from_raw_parts(values.as_ptr().cast(), values.len()) }
}

/// The words that these values are, to be written.
#[inline]
pub(crate) fn words_mut<W: Word>(values: &mut [W]) -> &mut [u64] {
    // SAFETY: as in `words`, and whatever word is written is a value.
    unsafe { slice::from_raw_parts_mut(values.as_mut_ptr().cast(), values.len()) }
}

/// The values that these words are.
#[inline]
pub(crate) fn values<W: Word>(words: &[u64]) -> &[W] {
    // SAFETY: every word is a value (`Word`), and the values are borrowed as long as the words are.
    unsafe { slice::from_raw_parts(words.as_ptr().cast(), words.len()) }
}
