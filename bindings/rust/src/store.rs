//! A store: its memory, and the calls on it.

use crate::raw::{self, StoreMut, StoreRef};
use crate::{image_bytes_of, sheet_bytes_of, Caller, Entry, Head, Quote, Refusal, Since, Tally};
use crate::{IMAGE_BYTES, JOURNAL_WORDS, SHEET_BYTES, TABLE_WORDS};
use std::fmt;

/// A store of prices: states numbered one after another, each a map from offers to prices.
///
/// It stands in a table and a journal, of memory of its own ([`Store::new`]) or lent ([`Store::lend`]), with a head and a
/// tally beside them; [`Store::from_parts`] takes up a store that was kept elsewhere. `T` and `J` are what the table and
/// the journal are held by: anything that gives a slice of words.
///
/// The table holds the map at the checkpoint, the journal the steps since the oldest state. Methods that change the store
/// take `&mut self`, the queries [`look_up`](Store::look_up), [`write_image`](Store::write_image),
/// [`write_state_image`](Store::write_state_image), [`write_sheet`](Store::write_sheet) and
/// [`write_state_sheet`](Store::write_state_sheet) `&self`, so that several threads may query a store at once. No call panics or
/// allocates; a refused one leaves everything as it came.
#[derive(Clone, PartialEq, Eq)]
pub struct Store<T = Vec<u64>, J = T> {
    table: T,
    journal: J,
    head: Head,
    tally: Tally,
}

impl Store {
    /// An empty store, as state 0, in memory of its own: so many words of table, 1 to 8,000, one for each offer that a map
    /// may have at a flush, and so many of journal, 1 to 4,096, one for each entry of the steps that may be held. Its depth is
    /// 0; [`Store::clear`] and the loads set another.
    ///
    /// Refused: [`Refusal::Lengths`], before anything is allocated that is longer.
    ///
    /// ```
    /// use cechnuol::{Refusal, Store};
    ///
    /// let store = Store::new(8000, 4096)?;
    /// assert_eq!(store.head().tip(), 0);
    /// assert_eq!(Store::new(8001, 4096), Err(Refusal::Lengths));
    /// # Ok::<(), Refusal>(())
    /// ```
    pub fn new(table_words: usize, journal_words: usize) -> Result<Store, Refusal> {
        if table_words > TABLE_WORDS || journal_words > JOURNAL_WORDS {
            return Err(Refusal::Lengths);
        }
        Store::cleared(vec![0; table_words], vec![0; journal_words])
    }
}

impl<'a> Store<&'a mut [u64]> {
    /// An empty store, as state 0, in memory that is lent for as long as the store is used. What the memory holds before does
    /// not matter, and is gone. Its depth is 0; [`Store::clear`] and the loads set another.
    ///
    /// Refused: [`Refusal::Lengths`]; the memory is then as it came.
    ///
    /// ```
    /// use cechnuol::{Entry, Refusal, Store};
    ///
    /// let (mut table, mut journal) = ([7; 4], [7; 16]);
    /// let mut store = Store::lend(&mut table, &mut journal)?;
    /// store.commit(&[Entry::put(5, 1200)])?;
    /// store.flush(1)?;
    /// assert_eq!(table, [Entry::put(5, 1200).word(), 0, 0, 0]);
    /// # Ok::<(), Refusal>(())
    /// ```
    pub fn lend(table: &'a mut [u64], journal: &'a mut [u64]) -> Result<Self, Refusal> {
        Store::cleared(table, journal)
    }
}

impl<T, J> Store<T, J> {
    /// The store of these parts as they are: one that was kept elsewhere and is taken up again, or one in a `static`, where
    /// all zeros are an empty store of depth 0. Nothing is tested or written here; the calls test its form
    /// ([`Refusal::Unsound`]).
    ///
    /// ```
    /// use cechnuol::{Caller, Entry, Refusal, Store};
    ///
    /// let mut store = Store::new(4, 16)?;
    /// store.commit(&[Entry::put(5, 1200)])?;
    /// let (table, journal, head, tally) = store.into_parts();
    /// let store = Store::from_parts(table, journal, head, tally);
    /// assert_eq!(store.look_up(Caller::Desk, 5, 1)?.price, Some(1200));
    /// # Ok::<(), Refusal>(())
    /// ```
    ///
    /// ```
    /// use cechnuol::{Caller, Head, Store, Tally, HEAD_WORDS, TALLY_WORDS};
    /// use std::sync::RwLock;
    ///
    /// static PRICES: RwLock<Store<[u64; 100], [u64; 50]>> = RwLock::new(Store::from_parts(
    ///     [0; 100],
    ///     [0; 50],
    ///     Head::from_words([0; HEAD_WORDS]),
    ///     Tally::from_words([0; TALLY_WORDS]),
    /// ));
    /// assert_eq!(PRICES.read().unwrap().look_up(Caller::Foyer, 5, 0)?.price, None);
    /// # Ok::<(), cechnuol::Refusal>(())
    /// ```
    pub const fn from_parts(table: T, journal: J, head: Head, tally: Tally) -> Store<T, J> {
        Store { table, journal, head, tally }
    }

    /// The parts: table, journal, head and tally.
    pub fn into_parts(self) -> (T, J, Head, Tally) {
        (self.table, self.journal, self.head, self.tally)
    }

    /// The head, which says what states and steps there are and which slots are open.
    pub const fn head(&self) -> &Head {
        &self.head
    }

    /// The tally.
    pub const fn tally(&self) -> &Tally {
        &self.tally
    }

    /// So many bytes are enough for the image of every state from the checkpoint to the tip, and for a restart: 6, and 8 for
    /// each word of the table in use and of the steps above the checkpoint. Never more than
    /// [`IMAGE_BYTES`](crate::IMAGE_BYTES), whatever words the head has.
    ///
    /// ```
    /// use cechnuol::{Entry, Refusal, Store};
    ///
    /// let mut store = Store::new(4, 16)?;
    /// assert_eq!(store.image_bytes(), 6);
    /// store.commit(&[Entry::put(5, 1200), Entry::put(9, 700)])?;
    /// store.commit(&[Entry::put(9, 800)])?;
    /// assert_eq!(store.image_bytes(), 30);
    /// let mut bytes = vec![0; store.image_bytes()];
    /// assert_eq!(store.write_image(&mut bytes), Ok(22));
    /// # Ok::<(), Refusal>(())
    /// ```
    pub fn image_bytes(&self) -> usize {
        image_bytes_of(self.most_offers()).min(IMAGE_BYTES)
    }

    /// So many bytes are enough for the sheet of every state from the checkpoint to the tip: 8, and 12 for each word of the table
    /// in use and of the steps above the checkpoint, as if each were an offer in a row of its own. Never more than
    /// [`SHEET_BYTES`](crate::SHEET_BYTES), whatever words the head has.
    ///
    /// ```
    /// use cechnuol::{Entry, Refusal, Store};
    ///
    /// let mut store = Store::new(4, 16)?;
    /// assert_eq!(store.sheet_bytes(), 8);
    /// store.commit(&[Entry::put(5, 1200), Entry::put(9, 700)])?;
    /// store.commit(&[Entry::put(40, 800)])?;
    /// assert_eq!(store.sheet_bytes(), 44);
    /// let mut bytes = vec![0; store.sheet_bytes()];
    /// assert_eq!(store.write_sheet(&mut bytes), Ok(36));
    /// # Ok::<(), Refusal>(())
    /// ```
    pub fn sheet_bytes(&self) -> usize {
        sheet_bytes_of(self.most_offers()).min(SHEET_BYTES)
    }

    /// The most offers that a state from the checkpoint to the tip may have: as if each change above the checkpoint were an offer
    /// of its own.
    fn most_offers(&self) -> usize {
        self.head.used().saturating_add(self.head.words_above_checkpoint())
    }
}

/// What reads a store.
impl<T: AsRef<[u64]>, J: AsRef<[u64]>> Store<T, J> {
    /// The table's words.
    pub fn table(&self) -> &[u64] {
        self.table.as_ref()
    }

    /// The journal's words.
    pub fn journal(&self) -> &[u64] {
        self.journal.as_ref()
    }

    /// The map at the checkpoint: an entry for each offer that has a price, offers rising.
    pub fn entries(&self) -> &[Entry] {
        let table = self.table();
        Entry::from_words(table.get(..self.head.used()).unwrap_or(table))
    }

    /// The store as a query of the plain functions is lent it.
    #[inline]
    pub fn as_raw(&self) -> StoreRef<'_> {
        StoreRef { table: self.table.as_ref(), journal: self.journal.as_ref(), head: self.head.words() }
    }

    /// The price of an offer at a state from the checkpoint to the tip, or none; and the state to which the last step leads
    /// that names the offer, of those above the checkpoint and up to the state, or that the table answered ([`Since`]).
    /// Lookups are open to both callers, and answer both alike.
    ///
    /// Refused: [`Refusal::Lengths`], [`Refusal::Unsound`], [`Refusal::BadList`] (an offer of 2^31 or more),
    /// [`Refusal::StateRange`].
    ///
    /// ```
    /// use cechnuol::{Caller, Entry, Quote, Refusal, Since, Store};
    ///
    /// let mut store = Store::new(4, 16)?;
    /// store.commit(&[Entry::put(5, 0)])?;
    /// store.commit(&[])?;
    /// assert_eq!(store.look_up(Caller::Desk, 5, 0), Ok(Quote { price: None, since: Since::Table }));
    /// assert_eq!(store.look_up(Caller::Desk, 5, 1), Ok(Quote { price: Some(0), since: Since::State(1) }));
    /// assert_eq!(store.look_up(Caller::Foyer, 5, 2), Ok(Quote { price: Some(0), since: Since::State(1) }));
    /// assert_eq!(store.look_up(Caller::Desk, 5, 3), Err(Refusal::StateRange));
    /// # Ok::<(), Refusal>(())
    /// ```
    #[inline]
    pub fn look_up(&self, caller: Caller, offer: u32, state: u32) -> Result<Quote, Refusal> {
        let (mut price, mut since) = (0, raw::BY_TABLE);
        let price = match self.as_raw().look_up(caller.number(), offer, state, &mut price, &mut since) {
            raw::NO_PRICE => None,
            // A price has 32 bits; it comes in a word.
            code => Refusal::check(code).map(|()| Some(price as u32))?,
        };
        Ok(Quote { price, since: Since::of_word(since) })
    }

    /// Writes the image of the tip to the start of the bytes, and gives its length: 6 bytes and 8 for each offer
    /// ([`image_bytes_of`]). Bytes past it stay. The newest prices are in it: no flush is needed before.
    ///
    /// The tip may have more offers than the table has words. Its image is written all the same; it can be loaded into a
    /// table that has a word for each of its offers, and into a shorter one not ([`Refusal::TableFull`]).
    ///
    /// Needs up to 160 KiB of stack where the tip is above the checkpoint.
    ///
    /// Refused: [`Refusal::Lengths`], [`Refusal::Unsound`], [`Refusal::OutputShort`]. At the last lend
    /// [`Store::image_bytes`], or [`IMAGE_BYTES`], which are always enough.
    ///
    /// ```
    /// use cechnuol::{Caller, Entry, Refusal, Store};
    ///
    /// let mut store = Store::new(1, 16)?;
    /// store.commit(&[Entry::put(5, 1200), Entry::put(9, 700)])?;
    /// let mut bytes = vec![0; store.image_bytes()];
    /// let length = store.write_image(&mut bytes)?;
    ///
    /// // The table of one word has no room for two offers, and a longer one has.
    /// assert_eq!(store.load(0, &bytes[..length]), Err(Refusal::TableFull));
    /// let mut longer = Store::new(2, 16)?;
    /// longer.load(0, &bytes[..length])?;
    /// assert_eq!(longer.head().tip(), 1);
    /// assert_eq!(longer.look_up(Caller::Desk, 9, 1)?.price, Some(700));
    /// # Ok::<(), Refusal>(())
    /// ```
    #[inline]
    pub fn write_image(&self, bytes: &mut [u8]) -> Result<usize, Refusal> {
        let mut count = 0;
        Refusal::check(self.as_raw().write_image(bytes, &mut count))?;
        // It is at most as long as the bytes.
        Ok(count as usize)
    }

    /// Writes the image of a state from the checkpoint to the tip to the start of the bytes, and gives its length, as
    /// [`Store::write_image`] does for the tip. The image has the state's number, and loads as its map.
    ///
    /// Needs up to 160 KiB of stack where the state is above the checkpoint.
    ///
    /// Refused: [`Refusal::Lengths`], [`Refusal::Unsound`], [`Refusal::StateRange`], [`Refusal::OutputShort`]. At the last
    /// lend [`Store::image_bytes`], or [`IMAGE_BYTES`], which are always enough.
    ///
    /// ```
    /// use cechnuol::{Caller, Entry, Refusal, Store};
    ///
    /// let mut store = Store::new(4, 16)?;
    /// store.commit(&[Entry::put(5, 1200)])?;
    /// store.commit(&[Entry::put(5, 1100)])?;
    ///
    /// // What was quoted at state 1.
    /// let mut bytes = vec![0; store.image_bytes()];
    /// let length = store.write_state_image(1, &mut bytes)?;
    /// let mut then = Store::new(4, 16)?;
    /// then.load(0, &bytes[..length])?;
    /// assert_eq!(then.look_up(Caller::Desk, 5, 1)?.price, Some(1200));
    ///
    /// assert_eq!(store.write_state_image(3, &mut bytes), Err(Refusal::StateRange));
    /// # Ok::<(), Refusal>(())
    /// ```
    #[inline]
    pub fn write_state_image(&self, state: u32, bytes: &mut [u8]) -> Result<usize, Refusal> {
        let mut count = 0;
        Refusal::check(self.as_raw().write_state_image(state, bytes, &mut count))?;
        // It is at most as long as the bytes.
        Ok(count as usize)
    }

    /// Writes the sheet of the tip to the start of the bytes, and gives its length: 8 bytes, 8 for each row and 4 for each offer.
    /// Bytes past it stay. [`Store::load_sheet`] says what a sheet is. It loads as the image of the tip does, and as with that
    /// the tip may have more offers than the table has words.
    ///
    /// Needs up to 160 KiB of stack where the tip is above the checkpoint.
    ///
    /// Refused: [`Refusal::Lengths`], [`Refusal::Unsound`], [`Refusal::OutputShort`]. At the last lend
    /// [`Store::sheet_bytes`], or [`SHEET_BYTES`], which are always enough.
    ///
    /// ```
    /// use cechnuol::{Entry, Refusal, Store};
    ///
    /// let mut store = Store::new(4, 16)?;
    /// // Row 1 has offers 32 to 63: 33 is its seat 1, and 63 its last.
    /// store.commit(&[Entry::put(33, 1200), Entry::put(63, 700)])?;
    /// let mut bytes = vec![0; store.sheet_bytes()];
    /// let length = store.write_sheet(&mut bytes)?;
    /// let header = [0, 0, 0, 1, 0, 0, 0, 1];
    /// let row = [0, 0, 0, 0x40, 0x40, 0, 0, 1, 0, 0, 0x04, 0xB0, 0, 0, 0x02, 0xBC];
    /// assert_eq!(bytes[..length], [&header[..], &row].concat());
    /// # Ok::<(), Refusal>(())
    /// ```
    #[inline]
    pub fn write_sheet(&self, bytes: &mut [u8]) -> Result<usize, Refusal> {
        let mut count = 0;
        Refusal::check(self.as_raw().write_sheet(bytes, &mut count))?;
        // It is at most as long as the bytes.
        Ok(count as usize)
    }

    /// Writes the sheet of a state from the checkpoint to the tip to the start of the bytes, and gives its length, as
    /// [`Store::write_sheet`] does for the tip. The sheet has the state's number, and loads as its map.
    ///
    /// Needs up to 160 KiB of stack where the state is above the checkpoint.
    ///
    /// Refused: [`Refusal::Lengths`], [`Refusal::Unsound`], [`Refusal::StateRange`], [`Refusal::OutputShort`]. At the last
    /// lend [`Store::sheet_bytes`], or [`SHEET_BYTES`], which are always enough.
    ///
    /// ```
    /// use cechnuol::{Caller, Entry, Refusal, Store};
    ///
    /// let mut store = Store::new(4, 16)?;
    /// store.commit(&[Entry::put(5, 1200)])?;
    /// store.commit(&[Entry::put(5, 1100)])?;
    ///
    /// // What was quoted at state 1.
    /// let mut bytes = vec![0; store.sheet_bytes()];
    /// let length = store.write_state_sheet(1, &mut bytes)?;
    /// let mut then = Store::new(4, 16)?;
    /// then.load_sheet(0, &bytes[..length])?;
    /// assert_eq!(then.look_up(Caller::Desk, 5, 1)?.price, Some(1200));
    ///
    /// assert_eq!(store.write_state_sheet(3, &mut bytes), Err(Refusal::StateRange));
    /// # Ok::<(), Refusal>(())
    /// ```
    #[inline]
    pub fn write_state_sheet(&self, state: u32, bytes: &mut [u8]) -> Result<usize, Refusal> {
        let mut count = 0;
        Refusal::check(self.as_raw().write_state_sheet(state, bytes, &mut count))?;
        // It is at most as long as the bytes.
        Ok(count as usize)
    }
}

/// What changes a store.
impl<T: AsMut<[u64]>, J: AsMut<[u64]>> Store<T, J> {
    fn cleared(table: T, journal: J) -> Result<Store<T, J>, Refusal> {
        let mut store = Store::from_parts(table, journal, Head::default(), Tally::default());
        store.clear(0).map(|()| store)
    }

    /// The store as a call of the plain functions is lent it.
    #[inline]
    pub fn as_raw_mut(&mut self) -> StoreMut<'_> {
        StoreMut {
            table: self.table.as_mut(),
            journal: self.journal.as_mut(),
            head: self.head.words_mut(),
            tally: self.tally.words_mut(),
        }
    }

    /// Makes the store the empty map, as state 0, with all slots closed and the tally at zero. What it held before is not
    /// tested, and is gone. From then on the store has the depth given, 0 to 63: so many steps back from the tip a flush must
    /// leave possible.
    ///
    /// Refused: [`Refusal::Lengths`], [`Refusal::TooDeep`] (a depth above 63).
    ///
    /// ```
    /// use cechnuol::{Entry, Refusal, Store};
    ///
    /// let mut store = Store::new(4, 16)?;
    /// // The newest list can always be taken back.
    /// store.clear(1)?;
    /// store.commit(&[Entry::put(5, 1200)])?;
    /// assert_eq!(store.flush(1), Err(Refusal::TooDeep));
    /// store.commit(&[Entry::put(5, 12)])?;
    /// store.flush(1)?;
    /// store.roll_back(1)?;
    /// assert_eq!(store.clear(64), Err(Refusal::TooDeep));
    /// # Ok::<(), Refusal>(())
    /// ```
    #[inline]
    pub fn clear(&mut self, depth: u32) -> Result<(), Refusal> {
        Refusal::check(self.as_raw_mut().clear(depth))
    }

    /// Makes the store the map of an image, under its state number, which becomes oldest, checkpoint and tip; all slots
    /// close and the tally is set to zero. What the store held before is not tested, and is gone. From then on it has the depth
    /// given, as after [`Store::clear`]: an image has none.
    ///
    /// An image is the state number in 4 bytes, the number of offers in 2 and then the entries, 8 bytes each, offers rising,
    /// all with the most significant byte first. The bytes are the image and no more.
    ///
    /// Refused: [`Refusal::Lengths`], [`Refusal::TooDeep`] (a depth above 63), [`Refusal::BadImage`], [`Refusal::TableFull`]
    /// (load it into a longer table).
    ///
    /// ```
    /// use cechnuol::{Caller, Refusal, Store};
    ///
    /// let mut store = Store::new(4, 16)?;
    /// store.load(0, &[0, 0, 0, 7, 0, 1, 0x80, 0, 0, 5, 0, 0, 0x04, 0xB0])?;
    /// assert_eq!(store.look_up(Caller::Desk, 5, 7)?.price, Some(1200));
    /// # Ok::<(), Refusal>(())
    /// ```
    #[inline]
    pub fn load(&mut self, depth: u32, image: &[u8]) -> Result<(), Refusal> {
        Refusal::check(self.as_raw_mut().load(depth, image))
    }

    /// Makes the store the map of a sheet, with a depth, as [`Store::load`] does of an image. The sheet and the image of a state
    /// load alike.
    ///
    /// A sheet has the prices by row, 32 seats to a row, where an offer is 32 times its row and its seat. It is numbers of 4
    /// bytes, most significant byte first: the state number and the number of rows, and then for each row, rising, 64 times the
    /// row's number; a mask with a bit for each seat that has a price, seat 0 most significant, at least one of them set; and a
    /// price for each set bit, in seat order. A map without offers has no rows. The bytes are the sheet and no more, and each
    /// map with its number has one sheet.
    ///
    /// Refused: [`Refusal::Lengths`], [`Refusal::TooDeep`] (a depth above 63), [`Refusal::BadImage`], [`Refusal::TableFull`]
    /// (load it into a longer table, of a word for each offer).
    ///
    /// ```
    /// use cechnuol::{Caller, Refusal, Store};
    ///
    /// let mut store = Store::new(4, 16)?;
    /// // State 7 has one row, row 0, with seat 5.
    /// store.load_sheet(0, &[0, 0, 0, 7, 0, 0, 0, 1, 0, 0, 0, 0, 0x04, 0, 0, 0, 0, 0, 0x04, 0xB0])?;
    /// assert_eq!(store.look_up(Caller::Desk, 5, 7)?.price, Some(1200));
    /// # Ok::<(), Refusal>(())
    /// ```
    #[inline]
    pub fn load_sheet(&mut self, depth: u32, sheet: &[u8]) -> Result<(), Refusal> {
        Refusal::check(self.as_raw_mut().load_sheet(depth, sheet))
    }

    /// Writes the image of the checkpoint to the start of the bytes and loads it from there. The tip falls back to the
    /// checkpoint: the steps above it are lost, all slots close, and the tally is set to zero. The depth stays. To keep the
    /// newest state, write the image of the tip and load that instead; or, where the depth is 0, flush to the tip before.
    ///
    /// Refused: [`Refusal::Lengths`], [`Refusal::Unsound`], [`Refusal::OutputShort`]. The last goes by the image of the
    /// checkpoint, however long that of the tip is: [`image_bytes_of`] the words of the table in use.
    ///
    /// ```
    /// use cechnuol::{image_bytes_of, Caller, Entry, Refusal, Store};
    ///
    /// let mut store = Store::new(4, 16)?;
    /// store.commit(&[Entry::put(5, 1200)])?;
    /// store.restart(&mut vec![0; image_bytes_of(store.head().used())])?;
    /// assert_eq!(store.head().tip(), 0);
    /// assert_eq!(store.look_up(Caller::Desk, 5, 0)?.price, None);
    /// # Ok::<(), Refusal>(())
    /// ```
    #[inline]
    pub fn restart(&mut self, bytes: &mut [u8]) -> Result<(), Refusal> {
        Refusal::check(self.as_raw_mut().restart(bytes))
    }

    /// Commits a list of 0 to 64 entries, offers strictly rising, as the state after the tip, which becomes the tip. The list
    /// is copied to the journal.
    ///
    /// Refused: [`Refusal::Lengths`], [`Refusal::Unsound`], [`Refusal::BadList`], [`Refusal::LastState`],
    /// [`Refusal::StepsFull`], [`Refusal::JournalFull`].
    ///
    /// The last two say that there is no room, of 64 steps or of the journal's words. A list longer than the journal never
    /// fits. A flush makes room, to the highest state that the depth allows ([`Head::highest_flush`]), but not while a slot is
    /// open that was issued at an old state, since its steps are held for it; so to flush and try again is not enough. If there
    /// is still no room, or no state above the checkpoint can be flushed to, and the oldest state is below the checkpoint,
    /// forward or release the slot that was issued there. Where it is the checkpoint, no slot holds a step back and to close
    /// one frees nothing; if the flush is refused by [`Refusal::TableFull`], see [`Store::flush`].
    ///
    /// Where the oldest state is the highest that can be flushed to, the steps that the depth keeps fill the journal, and
    /// neither helps. Then give up states to step back to: roll back, or restart, which falls back to the checkpoint, or write
    /// the image of the tip and load it with the depth wanted, which drops the states below the tip. Or commit empty lists,
    /// which take no words, until more steps than the depth lie above the checkpoint, and flush: empty steps count too. It does
    /// not come to this with a journal of 64 * (depth + 1) words, and the 64 steps are never kept full by a depth alone.
    ///
    /// ```
    /// use cechnuol::{Caller, Entry, Refusal, Store};
    ///
    /// /// Makes room in a store that is full, by a flush or by the release of a slot that keeps it full.
    /// fn make_room(store: &mut Store, full: Refusal) -> Result<(), Refusal> {
    ///     let (oldest, checkpoint) = (store.head().oldest(), store.head().checkpoint());
    ///     let highest = store.head().highest_flush();
    ///     let flushed = if checkpoint < highest { store.flush(highest) } else { Err(full) };
    ///     match store.head().oldest_slot() {
    ///         // whoever reads in this slot has to issue it again
    ///         Some(slot) if flushed.is_err() && oldest < checkpoint => store.release(Caller::of_slot(slot), slot),
    ///         _ => flushed,
    ///     }
    /// }
    ///
    /// /// Commits a list, and makes room for it as often as it takes.
    /// fn commit(store: &mut Store, list: &[Entry]) -> Result<(), Refusal> {
    ///     loop {
    ///         match store.commit(list) {
    ///             Err(full @ (Refusal::StepsFull | Refusal::JournalFull)) if list.len() <= store.journal().len() => {
    ///                 make_room(store, full)?
    ///             }
    ///             answer => return answer,
    ///         }
    ///     }
    /// }
    ///
    /// let mut store = Store::new(100, 500)?;
    /// store.issue(Caller::Desk, 3, &mut [Entry::ask(5)])?;
    /// for price in 0..100 {
    ///     commit(&mut store, &[Entry::put(5, price)])?;
    /// }
    /// assert_eq!(store.look_up(Caller::Desk, 5, 100)?.price, Some(99));
    /// assert!(!store.head().is_open(3));
    ///
    /// // No read is given up in vain: here the table is too short for a flush to the tip.
    /// let mut store = Store::new(1, 500)?;
    /// store.issue(Caller::Desk, 3, &mut [Entry::ask(5)])?;
    /// store.commit(&[Entry::put(5, 1200), Entry::put(9, 700)])?;
    /// for price in 1..64 {
    ///     store.commit(&[Entry::put(5, price)])?;
    /// }
    /// assert_eq!(commit(&mut store, &[Entry::remove(9)]), Err(Refusal::TableFull));
    /// assert!(store.head().is_open(3));
    ///
    /// // Ten steps back stay possible, however many come: 64 * (10 + 1) entries have room for them and the next list.
    /// let mut store = Store::new(100, 704)?;
    /// store.clear(10)?;
    /// for price in 0..1000 {
    ///     commit(&mut store, &[Entry::put(5, price)])?;
    /// }
    /// store.roll_back(990)?;
    /// assert_eq!(store.look_up(Caller::Desk, 5, 990)?.price, Some(989));
    /// # Ok::<(), Refusal>(())
    /// ```
    #[inline]
    pub fn commit(&mut self, list: &[Entry]) -> Result<(), Refusal> {
        Refusal::check(self.as_raw_mut().commit(raw::words(list)))
    }

    /// Makes a state from the checkpoint to the tip the tip. The steps above it are gone, and later commits use their
    /// numbers again. The depth does not bar it: fewer steps than the depth may be left above the checkpoint.
    ///
    /// Refused: [`Refusal::Lengths`], [`Refusal::Unsound`], [`Refusal::StateRange`].
    ///
    /// ```
    /// use cechnuol::{Caller, Entry, Refusal, Store};
    ///
    /// let mut store = Store::new(4, 16)?;
    /// store.commit(&[Entry::put(5, 1100)])?;
    /// store.roll_back(0)?;
    /// store.commit(&[Entry::put(5, 1300)])?;
    /// assert_eq!(store.look_up(Caller::Desk, 5, 1)?.price, Some(1300));
    /// # Ok::<(), Refusal>(())
    /// ```
    #[inline]
    pub fn roll_back(&mut self, state: u32) -> Result<(), Refusal> {
        Refusal::check(self.as_raw_mut().roll_back(state))
    }

    /// Makes a state from the checkpoint to the tip the checkpoint: the table becomes the map at that state. Steps that no
    /// open slot needs go, and make room for commits; states below it can no longer be looked up or rolled back to, and no
    /// quote is since a state up to it any more ([`Since`]). A flush to the checkpoint changes nothing, and no depth bars it.
    ///
    /// Needs up to 160 KiB of stack.
    ///
    /// Refused: [`Refusal::Lengths`], [`Refusal::Unsound`], [`Refusal::StateRange`], [`Refusal::TooDeep`],
    /// [`Refusal::TableFull`].
    ///
    /// At [`Refusal::TooDeep`] the state is not the checkpoint, and fewer steps than the depth lie above it. Flush to a lower
    /// one, [`Head::highest_flush`] if that is above the checkpoint, or commit further steps first.
    ///
    /// At [`Refusal::TableFull`] the map at the state has more offers than the table has words. Flush to another state whose
    /// map fits, or commit removals first and flush to the state after them, with a depth once so many steps lie above it
    /// (only the map at the state named has to fit; where there is no room for a commit, roll back before); or write the image
    /// of the tip ([`Store::write_image`]), or of the checkpoint to keep the states above it ([`Store::write_state_image`]),
    /// and load it into another store with a longer table. Lists that it does not hold are committed there again:
    /// [`Store::journal`] and [`Head::ends`] of this one have them. Open reads and the tally stay behind.
    ///
    /// ```
    /// use cechnuol::{Entry, Refusal, Store};
    ///
    /// let mut store = Store::new(1, 16)?;
    /// store.commit(&[Entry::put(5, 1200)])?;
    /// store.commit(&[Entry::put(9, 700)])?;
    /// assert_eq!(store.flush(2), Err(Refusal::TableFull));
    /// store.commit(&[Entry::remove(5)])?;
    /// store.flush(3)?;
    /// assert_eq!(store.entries(), [Entry::put(9, 700)]);
    /// # Ok::<(), Refusal>(())
    /// ```
    #[inline]
    pub fn flush(&mut self, state: u32) -> Result<(), Refusal> {
        Refusal::check(self.as_raw_mut().flush(state))
    }

    /// Starts a read in a slot of the caller's, 0 to 5 of the desk and 6 or 7 of the foyer: fills a list of entries that ask,
    /// offers strictly rising, from the table, and opens the slot. The list has up to 64 entries, and up to 16 from the foyer
    /// ([`Caller::list_words`]). The entries then show what is there at the checkpoint, and the steps since are held until the
    /// slot is forwarded or released. Whoever calls keeps the entries for the forward.
    ///
    /// Refused: [`Refusal::Lengths`], [`Refusal::Unsound`], [`Refusal::SlotRange`], [`Refusal::OthersSlot`],
    /// [`Refusal::SlotTaken`], [`Refusal::BadList`], [`Refusal::LongList`].
    ///
    /// ```
    /// use cechnuol::{Caller, Entry, Refusal, Store};
    ///
    /// let mut store = Store::new(4, 16)?;
    /// let mut reads = [Entry::ask(5), Entry::ask(9)];
    /// store.issue(Caller::Foyer, 6, &mut reads)?;
    /// assert_eq!(reads.map(|entry| entry.price()), [None, None]);
    /// assert_eq!(store.head().issued(6), Some(0));
    /// assert_eq!(store.issue(Caller::Foyer, 0, &mut reads), Err(Refusal::OthersSlot));
    /// # Ok::<(), Refusal>(())
    /// ```
    #[inline]
    pub fn issue(&mut self, caller: Caller, slot: usize, reads: &mut [Entry]) -> Result<(), Refusal> {
        Refusal::check(self.as_raw_mut().issue(caller.number(), slot, raw::words_mut(reads)))
    }

    /// Brings a read set that an issue filled forward to a state from the checkpoint to the tip, and closes its slot, which is
    /// one of the caller's. Each entry then shows its offer's price at that state, or none; steps that no open slot needs any
    /// more go.
    ///
    /// The read set is the program's, and only its form and length are tested: another one, such as that of an earlier issue
    /// of the slot, is brought forward from what it says, and its prices are then wrong.
    ///
    /// Refused: [`Refusal::Lengths`], [`Refusal::Unsound`], [`Refusal::SlotRange`], [`Refusal::OthersSlot`],
    /// [`Refusal::SlotClosed`], [`Refusal::BadList`], [`Refusal::LongList`], [`Refusal::StateRange`].
    ///
    /// ```
    /// use cechnuol::{Caller, Entry, Refusal, Store};
    ///
    /// let mut store = Store::new(4, 16)?;
    /// let mut reads = [Entry::ask(5), Entry::ask(9)];
    /// store.issue(Caller::Desk, 0, &mut reads)?;
    /// store.commit(&[Entry::put(5, 1100)])?;
    /// store.flush(1)?;
    /// store.forward(Caller::Desk, 0, 1, &mut reads)?;
    /// assert_eq!(reads, [Entry::put(5, 1100), Entry::remove(9)]);
    /// # Ok::<(), Refusal>(())
    /// ```
    #[inline]
    pub fn forward(
        &mut self,
        caller: Caller,
        slot: usize,
        state: u32,
        reads: &mut [Entry],
    ) -> Result<(), Refusal> {
        Refusal::check(self.as_raw_mut().forward(caller.number(), slot, state, raw::words_mut(reads)))
    }

    /// Closes a slot of the caller's without a forward: the read is given up. Steps that no open slot needs any more go. Tell
    /// the reader before the slot is issued again: the unit cannot know whose read set a forward is lent.
    ///
    /// Refused: [`Refusal::Lengths`], [`Refusal::Unsound`], [`Refusal::SlotRange`], [`Refusal::OthersSlot`],
    /// [`Refusal::SlotClosed`].
    #[inline]
    pub fn release(&mut self, caller: Caller, slot: usize) -> Result<(), Refusal> {
        Refusal::check(self.as_raw_mut().release(caller.number(), slot))
    }
}

/// Head and tally, and how long table and journal are.
impl<T: AsRef<[u64]>, J: AsRef<[u64]>> fmt::Debug for Store<T, J> {
    fn fmt(&self, f: &mut fmt::Formatter<'_>) -> fmt::Result {
        f.debug_struct("Store")
            .field("table_words", &self.table().len())
            .field("journal_words", &self.journal().len())
            .field("head", &self.head)
            .field("tally", &self.tally)
            .finish_non_exhaustive()
    }
}
