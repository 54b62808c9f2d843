//! The price unit: a store of prices in memory that its caller lends.
//!
//! A store is fed lists of price changes and answers what an offer costs in any recent state, and how fresh that is. It
//! steps back when the feed is corrected, lets a read start before the state that it serves exists, prices batches of
//! orders, and writes and loads images and row sheets. It is a C library whose functions are proved to do what is said of
//! them, for every content and length of what they are lent; this crate is that library with Rust's types, and adds no rule
//! of its own.
//!
//! ```
//! use cechnuol::{price_batch, Caller, Entry, Order, Refusal, Since, Store};
//!
//! # fn main() -> Result<(), Refusal> {
//! // An empty store, as state 0: room for 1,000 offers in the table, and for 500 entries of steps in the journal.
//! let mut store = Store::new(1000, 500)?;
//!
//! // A list of changes leads to state 1. Each state from the checkpoint to the tip can be quoted, at the desk and in the
//! // foyer, and a quote says which state named the offer last.
//! store.commit(&[Entry::put(5, 1200), Entry::put(9, 700)])?;
//! let quote = store.look_up(Caller::Desk, 5, 1)?;
//! assert_eq!((quote.price, quote.since), (Some(1200), Since::State(1)));
//! assert_eq!(store.look_up(Caller::Foyer, 5, 0)?.price, None);
//!
//! // A flush makes state 1 the checkpoint: the table holds its map, and the step to it is no longer needed.
//! store.flush(1)?;
//! assert_eq!(store.look_up(Caller::Desk, 5, 1)?.since, Since::Table);
//!
//! // The desk's read of offers 5 and 7 starts now, in slot 0, and is to serve a state that does not exist yet.
//! let mut reads = [Entry::ask(5), Entry::ask(7)];
//! store.issue(Caller::Desk, 0, &mut reads)?;
//! assert_eq!(reads, [Entry::put(5, 1200), Entry::remove(7)]);
//!
//! // State 2 comes, is corrected, and comes again.
//! store.commit(&[Entry::put(5, 110), Entry::put(7, 300)])?;
//! store.roll_back(1)?;
//! store.commit(&[Entry::put(5, 1100), Entry::put(7, 300)])?;
//! store.flush(2)?;
//!
//! // The read is brought forward to it, and the slot is free again.
//! store.forward(Caller::Desk, 0, 2, &mut reads)?;
//! assert_eq!(reads, [Entry::put(5, 1100), Entry::put(7, 300)]);
//!
//! // Orders are priced on a read set alone; what they change is a list that can be committed.
//! let mut changes = [Entry::from_word(0); 2];
//! let count = price_batch(&reads, &[Order::raise(7, 50), Order::withdraw(5)], &mut changes)?;
//! assert_eq!(changes[..count], [Entry::remove(5), Entry::put(7, 350)]);
//! store.commit(&changes[..count])?;
//! assert_eq!(store.look_up(Caller::Desk, 7, 3)?.price, Some(350));
//! # Ok(())
//! # }
//! ```
//!
//! # States, steps and slots
//!
//! States are numbered with 32 bits, one after another. The *checkpoint* is the state that the table holds, the *tip* the
//! newest. A *step* leads from a state to the next; it is the list that was committed. A *slot* is the place of a read
//! that has started and not ended: [`Store::issue`] opens it, and [`Store::forward`] or [`Store::release`] closes it. The
//! *oldest* state is the least of the checkpoint and the states at which the open slots were issued, and the steps above
//! it are held in the journal. The *depth* is how many steps back from the tip a flush must leave possible: other than to
//! the checkpoint, which changes nothing, [`Store::flush`] goes no higher than the tip less the depth. [`Head`] has all of
//! these.
//!
//! A new store has depth 0, which bars nothing. [`Store::clear`] and the loads are told the depth, [`Store::restart`] keeps
//! it, and no image or sheet has it. It bars no rollback, and so fewer steps than the depth may be there after one, as after
//! a clear or a load; then there is nothing to flush until more steps than the depth lie above the checkpoint.
//!
//! A lookup ([`Store::look_up`]) gives a [`Quote`]: the price of an offer at a state, or none, and the state to which the
//! last step leads that names the offer, or that the table answered ([`Since`]).
//!
//! Every lookup, issue, forward and release says who calls ([`Caller`]): the desk at the counter, or a display in the foyer
//! that reads the same store. Each has slots of its own, and the foyer's lists are shorter. Lookups are open to both.
//!
//! An image is the map of one state: of the tip ([`Store::write_image`]), or of any other from the checkpoint on
//! ([`Store::write_state_image`]). Loaded, it is that state and nothing else: no step and no open slot. A
//! [`Store::restart`] keeps the checkpoint and nothing above it.
//!
//! A sheet is the same map by row, as box offices exchange it: 32 seats to a row, where an offer is 32 times its row and its
//! seat ([`Store::write_sheet`], [`Store::write_state_sheet`], [`Store::load_sheet`]). The sheet and the image of a state
//! load alike.
//!
//! # Limits
//!
//! | what | limit | |
//! |---|---|---|
//! | an offer | 0 to 2^31 - 1 | a higher one is another offer in an [`Entry`], whose builders cut it; a lookup of it is [`Refusal::BadList`] |
//! | a price | 0 to 2^32 - 1, and 0 is a price | |
//! | a table | 1 to 8,000 words, an offer each | [`TABLE_WORDS`] |
//! | a journal | 1 to 4,096 words, an entry of a held step each | [`JOURNAL_WORDS`] |
//! | a list or read set | 0 to 64 entries, offers strictly rising | [`LIST_WORDS`] |
//! | one that the foyer issues or forwards | 0 to 16 | [`FOYER_WORDS`] |
//! | the orders of a batch | 0 to 64 | [`BATCH_ORDERS`] |
//! | slots | 8, from 0 to 7 | [`SLOTS`] |
//! | the desk's slots, and the foyer's | 0 to 5, and 6 and 7 | [`FOYER_SLOT`] |
//! | held steps | 64 | [`STEPS`] |
//! | a depth | 0 to 63 steps | [`MOST_DEPTH`] |
//! | an image | 6 bytes and 8 for each offer | [`image_bytes_of`], [`Store::image_bytes`] |
//! | the longest image, of a state with a full table and 4,096 new offers above it | 96,774 bytes | [`IMAGE_BYTES`] |
//! | the longest that can be loaded | 64,006 bytes, in a table of 8,000 words | |
//! | a sheet | 8 bytes, 8 for each row and 4 for each offer | [`sheet_bytes_of`], [`Store::sheet_bytes`] |
//! | the longest sheet, of a state with as many offers and each in a row of its own | 145,160 bytes | [`SHEET_BYTES`] |
//! | the longest that can be loaded | 96,008 bytes, in a table of 8,000 words | |
//!
//! # Refusals, threads and stack
//!
//! A call is accepted, or refused with a [`Refusal`] that says why; then everything that it was lent is as it came. Where
//! there is something to do about it, it is said there. No call panics, allocates, blocks or keeps anything between calls.
//!
//! A [`Store`] is `Send` and `Sync` where its memory is. Queries take `&self` and may be made from several threads at once.
//!
//! A flush, and the writing of an image or a sheet of a state above the checkpoint, need up to 160 KiB of stack, and any
//! other call less than 32 KiB. With few prices these take less than 40 KiB, so that a test with a small store does not show
//! that a stack is too small. Rust's threads have 2 MiB unless they are given less.
//!
//! # What a call tests, and what it does not
//!
//! Every call on a store but `clear` and the loads tests the whole of it, in one pass over table and journal: some
//! microseconds where they are as long as can be. A flush of 64 steps of 64 entries into the longest table takes about a
//! hundred, as does an image of the state that they lead to, and a forward of 64 entries over as many steps some tens. A
//! sheet takes longer to write and to load than the image of the same state, and the longer the more rows it has.
//!
//! [`Refusal::Unsound`] is answered where the form of a store is broken: the order of offers, the zeros, numbers that do not
//! fit each other, or a depth above 63. A price, an offer, the end of a step, the checkpoint or the depth that was changed
//! within that form is taken as it is. A call that was cut off, by a kill or a loss of power, may leave such a store: go on
//! from an image, and keep a checksum of your own where memory may fail. An image has none either, nor has a sheet.
//!
//! # Linking
//!
//! The build script looks for `libcechnuol.a` in the folder that `CECHNUOL_LIB_DIR` names (a relative one counts from the
//! crate); else where `pkg-config` has the module `cechnuol` of this version; else beside the crate, in
//! `../lib` (the tarball) or `../../target/staticlib` (the repository). The library is for x86-64 Linux.
#![deny(missing_docs)]
#![deny(unsafe_code)]

#[cfg(not(all(target_os = "linux", target_arch = "x86_64")))]
compile_error!("libcechnuol.a is for x86-64 Linux");

mod caller;
mod entry;
mod head;
mod order;
mod quote;
#[allow(unsafe_code)]
pub mod raw;
mod refusal;
mod store;

pub use caller::Caller;
pub use entry::Entry;
pub use head::{Head, Tally};
pub use order::Order;
pub use quote::{Quote, Since};
pub use refusal::Refusal;
pub use store::Store;

/// The most words of a table; the least is 1.
pub const TABLE_WORDS: usize = 8000;
/// The most words of a journal; the least is 1.
pub const JOURNAL_WORDS: usize = 4096;
/// The most entries of a list or of a read set.
pub const LIST_WORDS: usize = 64;
/// The most entries of a list that the foyer issues and of a read set that it forwards.
pub const FOYER_WORDS: usize = 16;
/// The most orders of a batch.
pub const BATCH_ORDERS: usize = 64;
/// How many slots there are.
pub const SLOTS: usize = 8;
/// The foyer has the slots from this one on, the desk those below it.
pub const FOYER_SLOT: usize = 6;
/// The most steps that are held.
pub const STEPS: usize = 64;
/// The largest depth of a store.
pub const MOST_DEPTH: u32 = 63;
/// The bytes of the longest image: of a state that has as many offers as the longest table and the longest journal have words.
/// No table holds more offers than [`TABLE_WORDS`], so that the longest image that can be loaded is shorter.
pub const IMAGE_BYTES: usize = image_bytes_of(TABLE_WORDS + JOURNAL_WORDS);
/// The bytes of the longest sheet: of such a state where each offer is in a row of its own. The longest sheet that can be loaded
/// is shorter.
pub const SHEET_BYTES: usize = sheet_bytes_of(TABLE_WORDS + JOURNAL_WORDS);
/// The words of a head.
pub const HEAD_WORDS: usize = 85;
/// The words of a tally.
pub const TALLY_WORDS: usize = 3;

/// The version of this crate as a number: major * 1,000,000 + minor * 1,000 + patch.
pub const VERSION: u64 = 6_000_000;

/// The version of the library that is linked, as a number. It differs from [`VERSION`] where crate and library are not of
/// one release.
///
/// ```
/// assert_eq!(cechnuol::version(), cechnuol::VERSION);
/// ```
#[inline]
pub fn version() -> u64 {
    raw::version()
}

/// The bytes of an image of so many offers; the largest number where there are more than any memory has.
pub const fn image_bytes_of(offers: usize) -> usize {
    offers.saturating_mul(8).saturating_add(6)
}

/// The most bytes that a sheet of so many offers has, which is where each is in a row of its own; the largest number where there
/// are more than any memory has.
pub const fn sheet_bytes_of(offers: usize) -> usize {
    offers.saturating_mul(12).saturating_add(8)
}

/// Prices orders on a read set, without a store. The orders run in turn, each seeing what the earlier ones did; the changes
/// go to the start of `out`, an entry for each offer that an order names, offers rising, and how many they are is the
/// answer. Entries of `out` past them stay.
///
/// Refused: [`Refusal::BadList`] (the read set breaks the rules of a list, or there are over 64 orders),
/// [`Refusal::BadOrder`], [`Refusal::OfferNotRead`]; then, by the first order that fails, [`Refusal::OrderNoPrice`] or
/// [`Refusal::PriceRange`]; [`Refusal::OutputShort`].
///
/// ```
/// use cechnuol::{price_batch, Entry, Order, Refusal};
///
/// let reads = [Entry::put(5, 1200), Entry::remove(9)];
/// let mut out = [Entry::from_word(0); 2];
/// let orders = [Order::cut(5, 200), Order::list(9, 500), Order::sixteenths(5, 8, 600)];
/// assert_eq!(price_batch(&reads, &orders, &mut out), Ok(2));
/// assert_eq!(out, [Entry::put(5, 600), Entry::put(9, 500)]);
/// assert_eq!(price_batch(&reads, &[Order::cut(5, 1201)], &mut out), Err(Refusal::PriceRange));
/// ```
#[inline]
pub fn price_batch(reads: &[Entry], orders: &[Order], out: &mut [Entry]) -> Result<usize, Refusal> {
    let mut count = 0;
    let [reads, orders] = [raw::words(reads), raw::words(orders)];
    Refusal::check(raw::price_batch(reads, orders, raw::words_mut(out), &mut count))?;
    // It is at most as many as `out` has.
    Ok(count as usize)
}
