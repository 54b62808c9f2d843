//! The calls that read: look up, issue, forward, release.

use super::caller::Caller;
use super::quote::{Quote, Since};
use super::refusal::Refusal;
use super::store::Store;
use super::word;

impl Store<'_> {
    /// The price of an offer, or none, at a state, and how fresh that is, whoever asks.
    pub fn look_up(&self, offer: u32, state: u32) -> Result<Quote, Refusal> {
        self.test_store()?;
        Refusal::BadList.unless(offer < word::OFFERS)?;
        self.test_state(state)?;
        let (found, since) = match self.last_change(self.head.checkpoint, state, offer) {
            Some((word, named)) => (Some(word), Since::State(named)),
            None => (word::find(&self.table[..self.head.used], offer), Since::Table),
        };
        let price = found.filter(|&word| word::is_put(word)).map(word::price);
        Ok(Quote { price, since })
    }

    /// Fills a list of kind 0 words from the table, and opens a slot.
    pub fn issue(&mut self, caller: Caller, slot: usize, list: &mut [u64]) -> Result<(), Refusal> {
        self.test_store()?;
        self.test_slot(caller, slot)?;
        Refusal::SlotTaken.unless(!self.head.held[slot])?;
        Refusal::BadList.unless(word::is_list(list) && !list.iter().any(|&word| word::is_put(word)))?;
        Refusal::LongList.unless(list.len() <= caller.list_words())?;
        let map = &self.table[..self.head.used];
        for word in list {
            *word = word::find(map, word::offer(*word)).unwrap_or(*word);
        }
        self.head.held[slot] = true;
        self.head.issued[slot] = self.head.checkpoint;
        Ok(())
    }

    /// Brings a read set forward to a state at its own offers, and closes its slot.
    pub fn forward(
        &mut self,
        caller: Caller,
        slot: usize,
        state: u32,
        reads: &mut [u64],
    ) -> Result<(), Refusal> {
        self.test_store()?;
        self.test_slot(caller, slot)?;
        Refusal::SlotClosed.unless(self.head.held[slot])?;
        Refusal::BadList.unless(word::is_list(reads))?;
        Refusal::LongList.unless(reads.len() <= caller.list_words())?;
        self.test_state(state)?;
        let issued = self.head.issued[slot];
        for word in reads {
            if let Some((later, _)) = self.last_change(issued, state, word::offer(*word)) {
                *word = later;
            }
        }
        self.close(slot);
        Ok(())
    }

    /// Closes a slot.
    pub fn release(&mut self, caller: Caller, slot: usize) -> Result<(), Refusal> {
        self.test_store()?;
        self.test_slot(caller, slot)?;
        Refusal::SlotClosed.unless(self.head.held[slot])?;
        self.close(slot);
        Ok(())
    }

    fn close(&mut self, slot: usize) {
        self.head.held[slot] = false;
        self.head.issued[slot] = 0;
        self.trim();
    }

    /// The last change of an offer among the steps from one state to another, sought from the newest back, and the state to
    /// which its step leads.
    fn last_change(&self, from: u32, to: u32, offer: u32) -> Option<(u64, u32)> {
        let steps = self.head.steps_to(from)..self.head.steps_to(to);
        let (step, word) = steps.rev().find_map(|step| Some((step, word::find(self.step(step), offer)?)))?;
        Some((word, self.head.oldest + step as u32 + 1))
    }
}
