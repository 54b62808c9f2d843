//! The store on raw memory: table, journal, head and tally, and every call on them, as the papers say it.

use crate::caller::Caller;
use crate::changes::{apply, changes_of, compose, map_of, map_words, read, Changes, Map};
use crate::format::Format;
use crate::ground::{unless, Ground};
use crate::head::{count_on, Head, Tally, MOST_DEPTH, SLOTS, STEPS};
use crate::quote::{Quote, Since};
use crate::{sound, word};

/// The most words of a table and of a journal; the least is 1 for both.
pub const TABLE_WORDS: usize = 8000;
/// See [`TABLE_WORDS`].
pub const JOURNAL_WORDS: usize = 4096;
/// The most offers of a state: a table's, and a new one for each word of the steps above it.
pub const STATE_OFFERS: usize = TABLE_WORDS + JOURNAL_WORDS;

/// All that a store's calls are lent, and the head that travels with them.
#[derive(Clone, Debug, PartialEq, Eq)]
pub struct Store {
    /// Document 01's book.
    pub table: Vec<u64>,
    /// Document 01's change memory.
    pub journal: Vec<u64>,
    /// The head.
    pub head: Head,
    /// The tally.
    pub tally: Tally,
}

impl Store {
    /// A store of zeros with memory of these lengths.
    pub fn of_lengths(table: usize, journal: usize) -> Store {
        Store {
            table: vec![0; table],
            journal: vec![0; journal],
            head: Head::at_rest(0, 0, 0),
            tally: Tally::default(),
        }
    }

    // The grounds that concern most calls.

    /// Ground 1.
    fn test_lengths(&self) -> Result<(), Ground> {
        let table = (1..=TABLE_WORDS).contains(&self.table.len());
        let journal = (1..=JOURNAL_WORDS).contains(&self.journal.len());
        unless(table && journal, Ground::Length)
    }

    /// Grounds 1 and 2.
    fn test_store(&self) -> Result<(), Ground> {
        self.test_lengths()?;
        unless(self.is_sound(), Ground::Unsound)
    }

    /// Grounds 3 and 19, and the slot as an index.
    fn test_slot(&self, caller: Caller, slot: u64) -> Result<usize, Ground> {
        unless(slot < SLOTS as u64, Ground::Slot)?;
        let slot = slot as usize;
        unless(caller.slots().contains(&slot), Ground::OthersSlot)?;
        Ok(slot)
    }

    /// Ground 18. At the desk ground 6 has turned such a list away.
    fn test_words(&self, caller: Caller, list: &[u64]) -> Result<(), Ground> {
        unless(list.len() <= caller.list_words(), Ground::LongList)
    }

    /// Ground 11.
    fn test_state(&self, state: u32) -> Result<(), Ground> {
        unless(self.keeps(state), Ground::State)
    }

    /// Whether a state lies from the checkpoint to the tip.
    pub fn keeps(&self, state: u32) -> bool {
        (self.head.checkpoint..=self.head.tip).contains(&state)
    }

    /// Whether the store is sound.
    pub fn is_sound(&self) -> bool {
        sound::first_broken(&self.table, &self.journal, &self.head).is_none()
    }

    // What a sound store means. Each of these asks for a sound store.

    /// The table's words in use.
    fn used_words(&self) -> &[u64] {
        &self.table[..self.head.used as usize]
    }

    /// The number of steps from the oldest state to a state.
    fn steps_to(&self, state: u32) -> usize {
        (state - self.head.oldest) as usize
    }

    /// The journal words through the end of the first so many steps.
    fn end_of(&self, steps: usize) -> usize {
        match steps {
            0 => 0,
            steps => self.head.ends[steps - 1] as usize,
        }
    }

    /// The list of the step that leads to a state above the oldest.
    fn step_to(&self, state: u32) -> &[u64] {
        let steps = self.steps_to(state);
        &self.journal[self.end_of(steps - 1)..self.end_of(steps)]
    }

    /// The composition of the steps from one state to another.
    fn net_changes(&self, from: u32, to: u32) -> Changes {
        (from..to).fold(Changes::new(), |net, state| compose(&net, &changes_of(self.step_to(state + 1))))
    }

    /// The map of a state from the checkpoint to the tip: the table with the steps up to it applied.
    pub fn map_at(&self, state: u32) -> Map {
        apply(&map_of(self.used_words()), &self.net_changes(self.head.checkpoint, state))
    }

    /// Whether an offer is named by the step that leads to a state above the oldest: whether it puts the offer's price or
    /// removes it.
    pub fn is_named(&self, offer: u32, state: u32) -> bool {
        self.step_to(state).iter().any(|&word| word::offer(word) == offer)
    }

    /// The state to which the last step naming an offer leads, of the steps above the checkpoint and up to a state, or that the
    /// table answered.
    pub fn since(&self, offer: u32, state: u32) -> Since {
        let above = (self.head.checkpoint..=state).skip(1);
        above.filter(|&to| self.is_named(offer, to)).last().map_or(Since::Table, Since::State)
    }

    // The calls of a store at rest.

    /// Ground 20 for a depth that a store is to be given.
    fn test_depth(depth: u32) -> Result<(), Ground> {
        unless(depth <= MOST_DEPTH, Ground::TooDeep)
    }

    /// Makes the store hold one map under a number, with a depth, all other words zero.
    fn hold(&mut self, state: u32, words: &[u64], depth: u32) {
        self.table.fill(0);
        self.table[..words.len()].copy_from_slice(words);
        self.journal.fill(0);
        self.head = Head::at_rest(state, words.len() as u64, depth);
        self.tally = Tally::default();
    }

    /// Clear: the empty map as state 0, with a depth.
    pub fn clear(&mut self, depth: u32) -> Result<(), Ground> {
        self.test_lengths()?;
        Store::test_depth(depth)?;
        self.hold(0, &[], depth);
        Ok(())
    }

    /// Load: an image's or a sheet's map under its number, with a depth.
    pub fn load(&mut self, depth: u32, format: Format, bytes: &[u8]) -> Result<(), Ground> {
        self.test_lengths()?;
        Store::test_depth(depth)?;
        let (state, words) = format.read(bytes)?;
        unless(words.len() <= self.table.len(), Ground::TableFull)?;
        self.hold(state, &words, depth);
        Ok(())
    }

    /// Writes the image or the sheet of the state named, or the tip's if none is; bytes past it are unchanged. Gives its length.
    /// The table need not have room for the state's map: ground 16 is of the store that is loaded.
    pub fn write(&self, format: Format, state: Option<u32>, bytes: &mut [u8]) -> Result<usize, Ground> {
        self.test_store()?;
        let state = state.unwrap_or(self.head.tip);
        self.test_state(state)?;
        let written = format.write(state, &map_words(&self.map_at(state)));
        unless(written.len() <= bytes.len(), Ground::Output)?;
        bytes[..written.len()].copy_from_slice(&written);
        Ok(written.len())
    }

    /// Restart: writes the checkpoint's image into lent bytes and loads it back. The depth stays.
    pub fn restart(&mut self, bytes: &mut [u8]) -> Result<(), Ground> {
        let length = self.write(Format::Image, Some(self.head.checkpoint), bytes)?;
        self.load(self.head.depth, Format::Image, &bytes[..length])
    }

    // Steps.

    /// Appends a list as state tip + 1.
    pub fn commit(&mut self, list: &[u64]) -> Result<(), Ground> {
        self.test_store()?;
        unless(word::is_list(list), Ground::List)?;
        unless(self.head.tip < u32::MAX, Ground::LastState)?;
        let steps = self.steps_to(self.head.tip);
        unless(steps < STEPS, Ground::Steps)?;
        let start = self.end_of(steps);
        unless(list.len() <= self.journal.len() - start, Ground::JournalFull)?;
        let end = start + list.len();
        self.journal[start..end].copy_from_slice(list);
        self.head.ends[steps] = end as u64;
        self.head.tip += 1;
        count_on(&mut self.tally.committed, 1);
        Ok(())
    }

    /// Makes a state the tip and zeroes the words above.
    pub fn roll_back(&mut self, state: u32) -> Result<(), Ground> {
        self.test_store()?;
        self.test_state(state)?;
        let steps = self.steps_to(state);
        let end = self.end_of(steps);
        self.journal[end..].fill(0);
        self.head.ends[steps..].fill(0);
        count_on(&mut self.tally.rolled_back, self.head.tip - state);
        self.head.tip = state;
        Ok(())
    }

    /// Makes the table the map at a state, and that state the checkpoint.
    pub fn flush(&mut self, state: u32) -> Result<(), Ground> {
        self.test_store()?;
        self.test_state(state)?;
        unless(!self.head.bars(state), Ground::TooDeep)?;
        let words = map_words(&self.map_at(state));
        unless(words.len() <= self.table.len(), Ground::TableFull)?;
        self.table.fill(0);
        self.table[..words.len()].copy_from_slice(&words);
        self.head.used = words.len() as u64;
        count_on(&mut self.tally.flushed, state - self.head.checkpoint);
        self.head.checkpoint = state;
        self.let_go();
        Ok(())
    }

    /// Works out the oldest number anew; steps below it go and the rest move to the start.
    fn let_go(&mut self) {
        let oldest = self.head.least();
        let gone = self.steps_to(oldest);
        let cut = self.end_of(gone);
        let kept = self.steps_to(self.head.tip) - gone;
        let length = self.journal.len();
        self.journal.drain(..cut);
        self.journal.resize(length, 0);
        let mut ends = [0; STEPS];
        for (new, old) in ends.iter_mut().zip(&self.head.ends[gone..gone + kept]) {
            *new = old - cut as u64;
        }
        self.head.ends = ends;
        self.head.oldest = oldest;
    }

    // Reads.

    /// An offer's price, or none, at a state, and since when, whoever asks.
    pub fn look_up(&self, offer: u32, state: u32) -> Result<Quote, Ground> {
        self.test_store()?;
        unless(offer < word::OFFERS, Ground::List)?;
        self.test_state(state)?;
        Ok(Quote { price: self.map_at(state).get(&offer).copied(), since: self.since(offer, state) })
    }

    /// Fills a list of kind 0 words from the table and opens a slot.
    pub fn issue(&mut self, caller: Caller, slot: u64, list: &mut [u64]) -> Result<(), Ground> {
        self.test_store()?;
        let slot = self.test_slot(caller, slot)?;
        unless(!self.head.held[slot], Ground::SlotOpen)?;
        let kind_0 = list.iter().all(|&word| word::kind(word) == 0);
        unless(word::is_list(list) && kind_0, Ground::List)?;
        self.test_words(caller, list)?;
        let offers: Vec<u32> = list.iter().map(|&word| word::offer(word)).collect();
        list.copy_from_slice(&read(&map_of(self.used_words()), &offers));
        self.head.held[slot] = true;
        self.head.issued[slot] = self.head.checkpoint;
        Ok(())
    }

    /// Applies to a read set, for its own offers, the steps from the slot's number to a state; closes the slot.
    pub fn forward(
        &mut self,
        caller: Caller,
        slot: u64,
        state: u32,
        reads: &mut [u64],
    ) -> Result<(), Ground> {
        self.test_store()?;
        let slot = self.test_slot(caller, slot)?;
        unless(self.head.held[slot], Ground::SlotClosed)?;
        unless(word::is_list(reads), Ground::List)?;
        self.test_words(caller, reads)?;
        self.test_state(state)?;
        let net = self.net_changes(self.head.issued[slot], state);
        for word in reads {
            let offer = word::offer(*word);
            if let Some(&price) = net.get(&offer) {
                *word = word::entry(offer, price);
            }
        }
        self.close(slot);
        Ok(())
    }

    /// Closes a slot (document 01: drop).
    pub fn release(&mut self, caller: Caller, slot: u64) -> Result<(), Ground> {
        self.test_store()?;
        let slot = self.test_slot(caller, slot)?;
        unless(self.head.held[slot], Ground::SlotClosed)?;
        self.close(slot);
        Ok(())
    }

    fn close(&mut self, slot: usize) {
        self.head.held[slot] = false;
        self.head.issued[slot] = 0;
        self.let_go();
    }
}
