//! A store's memory, and the grounds that concern most calls.

use super::caller::Caller;
use super::head::{Head, Tally, MOST_DEPTH, SLOTS};
use super::refusal::Refusal;
use super::sound::is_sound;
use super::without_exits;

/// The most words of a table and of a journal; the least is 1 for both.
const TABLE_WORDS: usize = 8000;
/// See [`TABLE_WORDS`].
const JOURNAL_WORDS: usize = 4096;

/// What a call on a store is lent.
pub struct Store<'a> {
    pub table: &'a mut [u64],
    pub journal: &'a mut [u64],
    pub head: &'a mut Head,
    pub tally: &'a mut Tally,
}

/// The memory of a store.
#[derive(Clone, Debug, PartialEq, Eq)]
pub struct Memory {
    pub table: Vec<u64>,
    pub journal: Vec<u64>,
    pub head: Head,
    pub tally: Tally,
}

impl Memory {
    /// Memory of these lengths, all zero.
    pub fn of_lengths(table: usize, journal: usize) -> Memory {
        Memory {
            table: vec![0; table],
            journal: vec![0; journal],
            head: Head::at_rest(0, 0, 0),
            tally: Tally::default(),
        }
    }

    /// Whether the store in the memory is sound.
    pub fn is_sound(&self) -> bool {
        is_sound(&self.table, &self.journal, &self.head)
    }

    /// The same, in the form that can be vectorised.
    pub fn is_sound_without_exits(&self) -> bool {
        without_exits::is_sound(&self.table, &self.journal, &self.head)
    }

    /// The store in the memory.
    pub fn lend(&mut self) -> Store<'_> {
        Store {
            table: &mut self.table,
            journal: &mut self.journal,
            head: &mut self.head,
            tally: &mut self.tally,
        }
    }
}

/// Whether table and journal have lengths that may be lent.
pub(super) fn lengths_fit(table: &[u64], journal: &[u64]) -> bool {
    (1..=TABLE_WORDS).contains(&table.len()) && (1..=JOURNAL_WORDS).contains(&journal.len())
}

impl Store<'_> {
    /// Ground 1.
    fn test_lengths(&self) -> Result<(), Refusal> {
        Refusal::Lengths.unless(lengths_fit(self.table, self.journal))
    }

    /// Grounds 1 and 20, of a call that gives the store a depth.
    pub(super) fn test_lengths_and_depth(&self, depth: u32) -> Result<(), Refusal> {
        self.test_lengths()?;
        Refusal::TooDeep.unless(depth <= MOST_DEPTH)
    }

    /// Grounds 1 and 2.
    pub(super) fn test_store(&self) -> Result<(), Refusal> {
        self.test_lengths()?;
        Refusal::Unsound.unless(is_sound(self.table, self.journal, self.head))
    }

    /// Grounds 3 and 19.
    pub(super) fn test_slot(&self, caller: Caller, slot: usize) -> Result<(), Refusal> {
        Refusal::SlotRange.unless(slot < SLOTS)?;
        Refusal::OthersSlot.unless(caller.slots().contains(&slot))
    }

    /// Ground 11.
    pub(super) fn test_state(&self, state: u32) -> Result<(), Refusal> {
        Refusal::StateRange.unless((self.head.checkpoint..=self.head.tip).contains(&state))
    }

    /// The list of a held step.
    pub(super) fn step(&self, step: usize) -> &[u64] {
        &self.journal[self.head.end_of(step)..self.head.end_of(step + 1)]
    }

    /// Works out the oldest number anew, takes away the steps below it, and moves the rest to the start of the journal.
    pub(super) fn trim(&mut self) {
        let oldest = self.head.least();
        let gone = self.head.steps_to(oldest);
        if gone == 0 {
            return;
        }
        let held = self.head.steps_to(self.head.tip);
        let cut = self.head.end_of(gone);
        let end = self.head.end_of(held);
        self.journal.copy_within(cut..end, 0);
        self.journal[end - cut..end].fill(0);
        self.head.ends.copy_within(gone..held, 0);
        let (kept, others) = self.head.ends[..held].split_at_mut(held - gone);
        kept.iter_mut().for_each(|end| *end -= cut);
        others.fill(0);
        self.head.oldest = oldest;
    }
}
