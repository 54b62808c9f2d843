//! The head and the tally of a store, read by names.

use crate::raw::{
    CHECKPOINT, COMMITTED, DEPTH, ENDS, FLUSHED, ISSUED, OLDEST, ROLLED_BACK, TAKEN, TIP, USED,
};
use crate::{HEAD_WORDS, SLOTS, STEPS, TALLY_WORDS};
use std::fmt;

/// The head of a store: which states it has, which slots are open, where the held steps lie, and how deep it is.
///
/// Every accepted call leaves a head that says what is here; any other words are those of a head too, and the library
/// refuses a store that has them ([`Refusal::Unsound`](crate::Refusal::Unsound)). Of such words, a number that does not
/// fit the type it is read as is cut to its lowest bits; [`Head::words`] has them whole.
#[derive(Clone, PartialEq, Eq, Hash)]
#[repr(transparent)]
pub struct Head([u64; HEAD_WORDS]);

impl Head {
    /// The head of these words, whatever they are.
    pub const fn from_words(words: [u64; HEAD_WORDS]) -> Head {
        Head(words)
    }

    /// The words, to be kept with table and journal. [`raw`](crate::raw) has their places.
    pub const fn words(&self) -> &[u64; HEAD_WORDS] {
        &self.0
    }

    pub(crate) fn words_mut(&mut self) -> &mut [u64; HEAD_WORDS] {
        &mut self.0
    }

    /// The words of the table in use: the offers that have a price at the checkpoint.
    pub const fn used(&self) -> usize {
        self.0[USED] as usize
    }

    /// The oldest state: the least of the checkpoint and the states at which the open slots were issued. The steps above it
    /// are held.
    pub const fn oldest(&self) -> u32 {
        self.0[OLDEST] as u32
    }

    /// The state that the table holds: the lowest that can be looked up or written as an image, and the one that a restart keeps.
    pub const fn checkpoint(&self) -> u32 {
        self.0[CHECKPOINT] as u32
    }

    /// The newest state.
    pub const fn tip(&self) -> u32 {
        self.0[TIP] as u32
    }

    /// The depth: how many steps back from the tip a flush must leave possible, 0 to 63.
    pub const fn depth(&self) -> u32 {
        self.0[DEPTH] as u32
    }

    /// The highest state to which the depth lets a flush go: the tip less the depth or, where that is not above it, the
    /// checkpoint, and then a flush frees nothing. A flush to it is never [`Refusal::TooDeep`](crate::Refusal::TooDeep); the
    /// table may still have no room for it ([`Refusal::TableFull`](crate::Refusal::TableFull)).
    ///
    /// ```
    /// use cechnuol::{Refusal, Store};
    ///
    /// let mut store = Store::new(4, 16)?;
    /// store.clear(2)?;
    /// (0..5).try_for_each(|_| store.commit(&[]))?;
    /// assert_eq!(store.flush(4), Err(Refusal::TooDeep));
    /// assert_eq!(store.head().highest_flush(), 3);
    /// store.flush(3)?;
    ///
    /// // A rollback leaves one step above the checkpoint, which is fewer than the depth.
    /// store.roll_back(4)?;
    /// assert_eq!(store.head().highest_flush(), 3);
    /// # Ok::<(), Refusal>(())
    /// ```
    pub fn highest_flush(&self) -> u32 {
        self.tip().saturating_sub(self.depth()).max(self.checkpoint())
    }

    /// Whether a slot is open. There is none above 7.
    pub fn is_open(&self, slot: usize) -> bool {
        self.word_of(TAKEN, slot).is_some_and(|taken| taken != 0)
    }

    /// The state at which a slot was issued, if it is open.
    pub fn issued(&self, slot: usize) -> Option<u32> {
        self.word_of(ISSUED, slot).filter(|_| self.is_open(slot)).map(|issued| issued as u32)
    }

    /// The open slot that was issued at the lowest state, the first of them where there are several: the one that keeps the
    /// oldest steps held. To forward or release it makes room where a flush did not, if [`Head::oldest`] is below
    /// [`Head::checkpoint`]; else no slot keeps anything.
    pub fn oldest_slot(&self) -> Option<usize> {
        (0..SLOTS).filter(|&slot| self.is_open(slot)).min_by_key(|&slot| self.issued(slot))
    }

    /// How many steps are held: the tip less the oldest state. At 64 a commit is refused
    /// ([`Refusal::StepsFull`](crate::Refusal::StepsFull)).
    pub const fn held_steps(&self) -> usize {
        self.tip().saturating_sub(self.oldest()) as usize
    }

    /// Where each held step ends in the journal, the oldest first: how many words there are through its end. The last is
    /// how many words of the journal are in use.
    pub fn ends(&self) -> &[u64] {
        let ends = &self.0[ENDS..DEPTH];
        &ends[..self.held_steps().min(STEPS)]
    }

    /// The words of the journal that the steps above the checkpoint have.
    pub(crate) fn words_above_checkpoint(&self) -> usize {
        let ends = self.ends();
        let below = self.checkpoint().saturating_sub(self.oldest()) as usize;
        let end_of =
            |steps: usize| steps.checked_sub(1).and_then(|last| ends.get(last)).map_or(0, |&end| end);
        end_of(ends.len()).saturating_sub(end_of(below)) as usize
    }

    /// The word of a slot, of those that begin at a place.
    fn word_of(&self, first: usize, slot: usize) -> Option<u64> {
        self.0[first..].iter().take(SLOTS).nth(slot).copied()
    }
}

/// The head that a clear with depth 0 leaves: the empty map as state 0.
impl Default for Head {
    fn default() -> Head {
        Head([0; HEAD_WORDS])
    }
}

/// All words as they are, by their names.
impl fmt::Debug for Head {
    fn fmt(&self, f: &mut fmt::Formatter<'_>) -> fmt::Result {
        f.debug_struct("Head")
            .field("used", &self.0[USED])
            .field("oldest", &self.0[OLDEST])
            .field("checkpoint", &self.0[CHECKPOINT])
            .field("tip", &self.0[TIP])
            .field("taken", &&self.0[TAKEN..ISSUED])
            .field("issued", &&self.0[ISSUED..ENDS])
            .field("ends", &&self.0[ENDS..DEPTH])
            .field("depth", &self.0[DEPTH])
            .finish()
    }
}

/// The counts of a store since it was last cleared, loaded or restarted. A count stops at its largest value.
///
/// Of calls that were each lent the tally as the one before left it: committed = rolled back + flushed + (tip -
/// checkpoint).
#[derive(Clone, Copy, Default, PartialEq, Eq, Hash)]
#[repr(transparent)]
pub struct Tally([u64; TALLY_WORDS]);

impl Tally {
    /// The tally of these words.
    pub const fn from_words(words: [u64; TALLY_WORDS]) -> Tally {
        Tally(words)
    }

    /// The words, to be kept with table, journal and head.
    pub const fn words(&self) -> &[u64; TALLY_WORDS] {
        &self.0
    }

    pub(crate) fn words_mut(&mut self) -> &mut [u64; TALLY_WORDS] {
        &mut self.0
    }

    /// Steps committed.
    pub const fn committed(&self) -> u64 {
        self.0[COMMITTED]
    }

    /// Steps rolled back.
    pub const fn rolled_back(&self) -> u64 {
        self.0[ROLLED_BACK]
    }

    /// Steps flushed.
    pub const fn flushed(&self) -> u64 {
        self.0[FLUSHED]
    }
}

impl fmt::Debug for Tally {
    fn fmt(&self, f: &mut fmt::Formatter<'_>) -> fmt::Result {
        f.debug_struct("Tally")
            .field("committed", &self.committed())
            .field("rolled_back", &self.rolled_back())
            .field("flushed", &self.flushed())
            .finish()
    }
}
