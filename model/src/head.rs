//! The head and the tally of a store.

/// The number of slots.
pub const SLOTS: usize = 8;

/// The most steps that are held.
pub const STEPS: usize = 64;

/// The largest depth.
pub const MOST_DEPTH: u32 = 63;

/// The head: a value that travels with the calls.
#[derive(Clone, Debug, PartialEq, Eq)]
pub struct Head {
    /// The table's words in use.
    pub used: u64,
    /// Document 01's floor.
    pub oldest: u32,
    /// Document 01's anchor: the number of the state that the table holds.
    pub checkpoint: u32,
    /// The number of the newest state.
    pub tip: u32,
    /// Which slots are open.
    pub held: [bool; SLOTS],
    /// The checkpoint at the issue of each open slot; a closed one has 0.
    pub issued: [u32; SLOTS],
    /// The marks: journal words through the end of each held step; those not in use are 0.
    pub ends: [u64; STEPS],
    /// The depth that must stay: a flush to another state than the checkpoint goes no higher than the tip less the depth.
    pub depth: u32,
}

impl Head {
    /// The head of a store with a depth that holds one state, no step and no open slot.
    pub fn at_rest(state: u32, used: u64, depth: u32) -> Head {
        Head {
            used,
            oldest: state,
            checkpoint: state,
            tip: state,
            held: [false; SLOTS],
            issued: [0; SLOTS],
            ends: [0; STEPS],
            depth,
        }
    }

    /// Whether the depth bars a flush to a state: it is not the checkpoint, and is higher than the tip less the depth. That
    /// difference is one of whole numbers, and below every state where the tip is less than the depth.
    pub fn bars(&self, state: u32) -> bool {
        state != self.checkpoint && i64::from(state) > i64::from(self.tip) - i64::from(self.depth)
    }

    /// The numbers of the open slots.
    pub fn open_numbers(&self) -> impl Iterator<Item = u32> + '_ {
        self.held.iter().zip(&self.issued).filter(|(held, _)| **held).map(|(_, issued)| *issued)
    }

    /// The least of the checkpoint and the open slots' numbers.
    pub fn least(&self) -> u32 {
        self.open_numbers().fold(self.checkpoint, u32::min)
    }

    /// The fields as words, in the order in which they stand above; 1 for an open slot.
    pub fn words(&self) -> Vec<u64> {
        let mut words = vec![self.used, self.oldest.into(), self.checkpoint.into(), self.tip.into()];
        words.extend(self.held.map(u64::from));
        words.extend(self.issued.map(u64::from));
        words.extend(self.ends);
        words.push(self.depth.into());
        words
    }
}

/// The tally: steps committed, rolled back and flushed. A count stops at its largest value.
#[derive(Clone, Copy, Debug, Default, PartialEq, Eq)]
pub struct Tally {
    /// Steps committed.
    pub committed: u64,
    /// Steps rolled back.
    pub rolled_back: u64,
    /// Steps flushed.
    pub flushed: u64,
}

impl Tally {
    /// The counts, in the order in which they stand above.
    pub fn words(&self) -> [u64; 3] {
        [self.committed, self.rolled_back, self.flushed]
    }
}

/// Adds steps to a count, which stops at its largest value.
pub fn count_on(count: &mut u64, steps: u32) {
    *count = count.saturating_add(u64::from(steps));
}
