//! The calls that add, take back and flush steps.

use super::changes::{applied, composed};
use super::head::{count, STEPS};
use super::refusal::Refusal;
use super::store::Store;
use super::word;

impl Store<'_> {
    /// Appends a list as the state after the tip.
    pub fn commit(&mut self, list: &[u64]) -> Result<(), Refusal> {
        self.test_store()?;
        Refusal::BadList.unless(word::is_list(list))?;
        Refusal::LastState.unless(self.head.tip < u32::MAX)?;
        let held = self.head.steps_to(self.head.tip);
        Refusal::StepsFull.unless(held < STEPS)?;
        let start = self.head.end_of(held);
        let end = start + list.len();
        self.journal.get_mut(start..end).ok_or(Refusal::JournalFull)?.copy_from_slice(list);
        self.head.ends[held] = end;
        self.head.tip += 1;
        count(&mut self.tally.committed, 1);
        Ok(())
    }

    /// Makes a state the tip; the steps above it go.
    pub fn roll_back(&mut self, state: u32) -> Result<(), Refusal> {
        self.test_store()?;
        self.test_state(state)?;
        let kept = self.head.steps_to(state);
        let held = self.head.steps_to(self.head.tip);
        self.journal[self.head.end_of(kept)..self.head.end_of(held)].fill(0);
        self.head.ends[kept..held].fill(0);
        count(&mut self.tally.rolled_back, self.head.tip - state);
        self.head.tip = state;
        Ok(())
    }

    /// Makes the table the map at a state, and that state the checkpoint. So many steps as the depth stay above it, unless it is
    /// the checkpoint.
    pub fn flush(&mut self, state: u32) -> Result<(), Refusal> {
        self.test_store()?;
        self.test_state(state)?;
        let steps_above = self.head.tip - state;
        Refusal::TooDeep.unless(state == self.head.checkpoint || self.head.depth <= steps_above)?;
        let changes = self.changes_to(state);
        if !changes.is_empty() {
            self.apply(&changes)?;
        }
        count(&mut self.tally.flushed, state - self.head.checkpoint);
        self.head.checkpoint = state;
        self.trim();
        Ok(())
    }

    /// The composition of the steps from the checkpoint to a state.
    pub(super) fn changes_to(&self, state: u32) -> Vec<u64> {
        let from = self.head.steps_to(self.head.checkpoint);
        let ends = &self.head.ends[from..self.head.steps_to(state)];
        composed(self.journal, self.head.end_of(from), ends)
    }

    /// Applies changes to the table.
    fn apply(&mut self, changes: &[u64]) -> Result<(), Refusal> {
        let map = applied(&self.table[..self.head.used], changes);
        self.table.get_mut(..map.len()).ok_or(Refusal::TableFull)?.copy_from_slice(&map);
        if let Some(unused) = self.table.get_mut(map.len()..self.head.used) {
            unused.fill(0);
        }
        self.head.used = map.len();
        Ok(())
    }
}
