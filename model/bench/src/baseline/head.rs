//! The head and the tally of a store.

/// The number of slots, the most steps that are held, and the largest depth.
pub const SLOTS: usize = 8;
/// See [`SLOTS`].
pub const STEPS: usize = 64;
/// See [`SLOTS`].
pub const MOST_DEPTH: u32 = 63;

/// The words of a head, laid out as include/cechnuol.h says.
pub const HEAD_WORDS: usize = 85;
/// The word of the depth.
pub const DEPTH: usize = 84;

/// The head: where in table and journal things lie, and the numbers of the states.
#[derive(Clone, Debug, PartialEq, Eq)]
pub struct Head {
    /// How many words of the table are used.
    pub used: usize,
    /// The least of the checkpoint and the numbers of the open slots.
    pub oldest: u32,
    /// The state that the table holds.
    pub checkpoint: u32,
    /// The newest state.
    pub tip: u32,
    /// Which slots are open.
    pub held: [bool; SLOTS],
    /// The checkpoint at the issue of each open slot, else 0.
    pub issued: [u32; SLOTS],
    /// Where each held step ends in the journal; those not in use are 0.
    pub ends: [usize; STEPS],
    /// How many steps back from the tip a flush must leave possible.
    pub depth: u32,
}

impl Head {
    /// The head of a store that has one state, no step and no open slot.
    pub fn at_rest(state: u32, used: usize, depth: u32) -> Head {
        Head {
            used,
            oldest: state,
            checkpoint: state,
            tip: state,
            held: [false; SLOTS],
            issued: [0; SLOTS],
            ends: [0; STEPS],
            depth,
        }
    }

    /// The least of the checkpoint and the numbers of the open slots.
    pub fn least(&self) -> u32 {
        let open = self.held.iter().zip(&self.issued).filter(|(&held, _)| held);
        open.map(|(_, &issued)| issued).fold(self.checkpoint, u32::min)
    }

    /// The number of steps from the oldest state to a state.
    pub fn steps_to(&self, state: u32) -> usize {
        (state - self.oldest) as usize
    }

    /// The journal words through the end of the first so many steps.
    pub fn end_of(&self, steps: usize) -> usize {
        match steps {
            0 => 0,
            steps => self.ends[steps - 1],
        }
    }

    /// The head in words that fit its fields.
    pub fn of_words(words: &[u64]) -> Head {
        let mut head = Head::at_rest(0, words[0] as usize, words[DEPTH] as u32);
        head.oldest = words[1] as u32;
        head.checkpoint = words[2] as u32;
        head.tip = words[3] as u32;
        head.held = std::array::from_fn(|slot| words[4 + slot] == 1);
        head.issued = std::array::from_fn(|slot| words[12 + slot] as u32);
        head.ends = std::array::from_fn(|step| words[20 + step] as usize);
        head
    }

    /// Puts the head into its words.
    pub fn put_words(&self, words: &mut [u64; HEAD_WORDS]) {
        words[0] = self.used as u64;
        words[1] = self.oldest.into();
        words[2] = self.checkpoint.into();
        words[3] = self.tip.into();
        words[4..12].iter_mut().zip(self.held).for_each(|(word, held)| *word = held.into());
        words[12..20].iter_mut().zip(self.issued).for_each(|(word, issued)| *word = issued.into());
        words[20..DEPTH].iter_mut().zip(self.ends).for_each(|(word, end)| *word = end as u64);
        words[DEPTH] = self.depth.into();
    }
}

/// Steps committed, rolled back and flushed. A count stops at its largest value.
#[derive(Clone, Copy, Debug, Default, PartialEq, Eq)]
pub struct Tally {
    pub committed: u64,
    pub rolled_back: u64,
    pub flushed: u64,
}

/// Adds steps to a count.
pub fn count(count: &mut u64, steps: u32) {
    *count = count.saturating_add(steps.into());
}
