//! The proved unit behind a script: memory of its own, lent to the library with each call.

use crate::said::{say, Said};
use crate::Lent;
use cechnuol::raw::{CHECKPOINT, DEPTH, ENDS, ISSUED, OLDEST, TAKEN, TIP, USED};
use cechnuol::raw::{COMMITTED, DESK, FLUSHED, FOYER, ROLLED_BACK};
use model::caller::Caller;
use model::script::{HeadField, Holding, Memories, TallyField};
use model::unit::{Call, Filled};

/// What the library is lent, the words that it filled for each slot at the slot's last accepted issue, and the number by which
/// the foyer calls.
#[derive(Clone, Debug, PartialEq, Eq)]
pub struct Library {
    pub lent: Lent,
    pub bytes: Vec<u8>,
    pub filled: Filled,
    pub foyer: u32,
}

impl Default for Library {
    fn default() -> Library {
        Library { lent: Lent::of_lengths(0, 0), bytes: Vec::new(), filled: Filled::default(), foyer: FOYER }
    }
}

impl Library {
    /// Makes a call, and keeps what an accepted issue filled.
    pub fn serve(&mut self, call: &Call) -> Said {
        let number = self.number_of(call);
        let said = say(&mut self.lent, &mut self.bytes, number, call, &self.filled);
        if let (Call::Issue { slot, .. }, 0) = (call, said.code) {
            self.filled.keep(*slot, &said.words);
        }
        said
    }

    /// The number by which a call is made; the desk's where it does not say who calls.
    pub fn number_of(&self, call: &Call) -> u32 {
        match call.caller() {
            Some(Caller::Foyer) => self.foyer,
            Some(Caller::Desk) | None => DESK,
        }
    }
}

impl Holding for Library {
    fn memories(&mut self) -> Memories<'_> {
        Memories { table: &mut self.lent.table, journal: &mut self.lent.journal, bytes: &mut self.bytes }
    }

    fn head(&self) -> Vec<u64> {
        self.lent.head.to_vec()
    }

    fn set_head(&mut self, field: HeadField) {
        let (at, word) = match field {
            HeadField::Used(number) => (USED, number),
            HeadField::Oldest(number) => (OLDEST, number.into()),
            HeadField::Checkpoint(number) => (CHECKPOINT, number.into()),
            HeadField::Tip(number) => (TIP, number.into()),
            HeadField::Depth(number) => (DEPTH, number.into()),
            HeadField::Held(slot, open) => (TAKEN + slot, open.into()),
            HeadField::Issued(slot, number) => (ISSUED + slot, number.into()),
            HeadField::Ends(mark, number) => (ENDS + mark, number),
        };
        self.lent.head[at] = word;
    }

    fn tally(&self) -> [u64; 3] {
        [COMMITTED, ROLLED_BACK, FLUSHED].map(|at| self.lent.tally[at])
    }

    fn set_tally(&mut self, field: TallyField) {
        let (at, count) = match field {
            TallyField::Committed(count) => (COMMITTED, count),
            TallyField::RolledBack(count) => (ROLLED_BACK, count),
            TallyField::Flushed(count) => (FLUSHED, count),
        };
        self.lent.tally[at] = count;
    }

    fn answer(&mut self, call: &Call) -> String {
        self.serve(call).to_string()
    }
}
