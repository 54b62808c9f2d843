//! The plain list of whole maps (document 01): what the unit is held to over whole lists of calls.
//!
//! It is fed the load's image or sheet and its depth, the calls' arguments except a forward's read set, and the lengths lent.

use crate::caller::Caller;
use crate::changes::{apply, changes_of, map_of, map_words, read, Map};
use crate::format::Format;
use crate::ground::{unless, Ground};
use crate::head::{SLOTS, STEPS};
use crate::quote::{Quote, Since};
use crate::word;

/// An open slot: its number and its offers.
#[derive(Clone, Debug, PartialEq, Eq)]
struct Reading {
    number: u32,
    offers: Vec<u32>,
}

/// Whole maps numbered one after another, and beside each but the first the list that led to it.
#[derive(Clone, Debug)]
pub struct Plain {
    first: u32,
    maps: Vec<Map>,
    lists: Vec<Vec<u64>>,
    checkpoint: u32,
    slots: [Option<Reading>; SLOTS],
    table_words: usize,
    journal_words: usize,
    depth: u32,
}

/// A depth is a number from 0 to this.
const MOST_DEPTH: u32 = 63;

impl Plain {
    /// The load: the map of the image or the sheet under its number, all slots closed, and the depth that must stay.
    pub fn load(
        depth: u32,
        format: Format,
        bytes: &[u8],
        table_words: usize,
        journal_words: usize,
    ) -> Result<Plain, Ground> {
        unless(depth <= MOST_DEPTH, Ground::TooDeep)?;
        let (state, words) = format.read(bytes)?;
        unless(words.len() <= table_words, Ground::TableFull)?;
        Ok(Plain {
            first: state,
            maps: vec![map_of(&words)],
            lists: Vec::new(),
            checkpoint: state,
            slots: Default::default(),
            table_words,
            journal_words,
            depth,
        })
    }

    /// The number of the last map.
    pub fn tip(&self) -> u32 {
        self.first + self.lists.len() as u32
    }

    /// The checkpoint's number.
    pub fn checkpoint(&self) -> u32 {
        self.checkpoint
    }

    /// The depth that must stay.
    pub fn depth(&self) -> u32 {
        self.depth
    }

    /// The least of the checkpoint and the open slots' numbers.
    fn oldest(&self) -> u32 {
        self.slots.iter().flatten().map(|reading| reading.number).fold(self.checkpoint, u32::min)
    }

    /// The map of a state.
    pub fn map_at(&self, state: u32) -> &Map {
        &self.maps[(state - self.first) as usize]
    }

    /// The lists that lead to states above the oldest.
    fn held_lists(&self) -> &[Vec<u64>] {
        &self.lists[(self.oldest() - self.first) as usize..]
    }

    /// Since when an offer stands as the map of a state has it: of the lists that lead to states above the checkpoint and up to
    /// that state, the last one with a word of the offer.
    pub fn since(&self, offer: u32, state: u32) -> Since {
        let [from, to] = [self.checkpoint, state].map(|number| (number - self.first) as usize);
        let of_offer = |list: &Vec<u64>| list.iter().any(|&word| word::offer(word) == offer);
        match self.lists[from..to].iter().rposition(of_offer) {
            Some(index) => Since::State(self.checkpoint + 1 + index as u32),
            None => Since::Table,
        }
    }

    /// Grounds 3 and 19, and the slot as an index.
    fn test_slot(&self, caller: Caller, slot: u64) -> Result<usize, Ground> {
        let index = usize::try_from(slot).ok().filter(|&index| index < SLOTS).ok_or(Ground::Slot)?;
        unless(caller.slots().contains(&index), Ground::OthersSlot)?;
        Ok(index)
    }

    /// Grounds 3, 19 and 5, and the open slot's index and reading.
    fn test_reading(&self, caller: Caller, slot: u64) -> Result<(usize, &Reading), Ground> {
        let slot = self.test_slot(caller, slot)?;
        let reading = self.slots[slot].as_ref().ok_or(Ground::SlotClosed)?;
        Ok((slot, reading))
    }

    fn test_state(&self, state: u32) -> Result<(), Ground> {
        unless(self.checkpoint <= state && state <= self.tip(), Ground::State)
    }

    /// A commit adds the last map with the new list applied.
    pub fn commit(&mut self, list: &[u64]) -> Result<(), Ground> {
        unless(word::is_list(list), Ground::List)?;
        unless(self.tip() < u32::MAX, Ground::LastState)?;
        unless(self.held_lists().len() < STEPS, Ground::Steps)?;
        let held_words: usize = self.held_lists().iter().map(Vec::len).sum();
        unless(held_words + list.len() <= self.journal_words, Ground::JournalFull)?;
        let next = apply(self.map_at(self.tip()), &changes_of(list));
        self.maps.push(next);
        self.lists.push(list.to_vec());
        Ok(())
    }

    /// A rollback cuts the maps above its state.
    pub fn roll_back(&mut self, state: u32) -> Result<(), Ground> {
        self.test_state(state)?;
        let steps = (state - self.first) as usize;
        self.lists.truncate(steps);
        self.maps.truncate(steps + 1);
        Ok(())
    }

    /// Whether at least as many maps as the depth says are above that of a state: the state is then no higher than tip − depth.
    fn leaves_depth(&self, state: u32) -> bool {
        let above = self.tip() - state;
        above >= self.depth
    }

    /// A flush only moves the checkpoint, and to another state only where the depth is left above it.
    pub fn flush(&mut self, state: u32) -> Result<(), Ground> {
        self.test_state(state)?;
        unless(state == self.checkpoint || self.leaves_depth(state), Ground::TooDeep)?;
        unless(self.map_at(state).len() <= self.table_words, Ground::TableFull)?;
        self.checkpoint = state;
        Ok(())
    }

    /// A lookup reads the map of the state named, and the lists that led to it, whoever asks.
    pub fn look_up(&self, offer: u32, state: u32) -> Result<Quote, Ground> {
        unless(offer < word::OFFERS, Ground::List)?;
        self.test_state(state)?;
        Ok(Quote { price: self.map_at(state).get(&offer).copied(), since: self.since(offer, state) })
    }

    /// An issue opens its slot with the checkpoint's number and its list's offers. Gives the list as filled.
    pub fn issue(&mut self, caller: Caller, slot: u64, list: &[u64]) -> Result<Vec<u64>, Ground> {
        let slot = self.test_slot(caller, slot)?;
        unless(self.slots[slot].is_none(), Ground::SlotOpen)?;
        unless(word::is_list(list), Ground::List)?;
        unless(list.iter().all(|&word| word::kind(word) == 0), Ground::List)?;
        unless(list.len() <= caller.list_words(), Ground::LongList)?;
        let offers: Vec<u32> = list.iter().map(|&word| word::offer(word)).collect();
        let filled = read(self.map_at(self.checkpoint), &offers);
        self.slots[slot] = Some(Reading { number: self.checkpoint, offers });
        Ok(filled)
    }

    /// A forward gives, for each of the slot's offers, the word that shows it at the state, and closes the slot. Ground 18 is
    /// about those offers: the read set has as many words, and is not seen here.
    pub fn forward(&mut self, caller: Caller, slot: u64, state: u32) -> Result<Vec<u64>, Ground> {
        let (slot, reading) = self.test_reading(caller, slot)?;
        unless(reading.offers.len() <= caller.list_words(), Ground::LongList)?;
        self.test_state(state)?;
        let shown = read(self.map_at(state), &reading.offers);
        self.slots[slot] = None;
        Ok(shown)
    }

    /// A release closes the slot.
    pub fn release(&mut self, caller: Caller, slot: u64) -> Result<(), Ground> {
        let (slot, _) = self.test_reading(caller, slot)?;
        self.slots[slot] = None;
        Ok(())
    }

    /// Writing an image or a sheet changes nothing. Gives that of the map of the state named, or of the last map if none is,
    /// given the length of the output lent.
    pub fn write(&self, format: Format, state: Option<u32>, output: usize) -> Result<Vec<u8>, Ground> {
        let state = state.unwrap_or(self.tip());
        self.test_state(state)?;
        let words = map_words(self.map_at(state));
        unless(format.length(&words) <= output, Ground::Output)?;
        Ok(format.write(state, &words))
    }
}
