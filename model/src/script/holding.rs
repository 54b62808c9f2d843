//! What a script acts on.

use super::{words_text, HeadField, TallyField};
use crate::head::{Head, Tally};
use crate::unit::{Call, Reply, Unit};

/// The memories that a script lends.
pub struct Memories<'a> {
    pub table: &'a mut Vec<u64>,
    pub journal: &'a mut Vec<u64>,
    pub bytes: &'a mut Vec<u8>,
}

/// What a script holds, and the unit that serves its calls on it: the model's, or the proved one behind its C interface.
///
/// Head, tally and answers come as the numbers and the text that the unit left and gave, whether or not document 01 knows such
/// ones, so that what is printed hides nothing.
pub trait Holding {
    /// The lent memories.
    fn memories(&mut self) -> Memories<'_>;
    /// The head's 85 numbers, in the order of `show head`, but the depth last.
    fn head(&self) -> Vec<u64>;
    /// Sets a field of the head.
    fn set_head(&mut self, field: HeadField);
    /// The tally's counts, in the order of `show tally`.
    fn tally(&self) -> [u64; 3];
    /// Sets a count of the tally.
    fn set_tally(&mut self, field: TallyField);
    /// Makes a call, and gives what it prints.
    fn answer(&mut self, call: &Call) -> String;
}

impl Holding for Unit {
    fn memories(&mut self) -> Memories<'_> {
        let Unit { store, bytes, .. } = self;
        Memories { table: &mut store.table, journal: &mut store.journal, bytes }
    }

    fn head(&self) -> Vec<u64> {
        self.store.head.words()
    }

    fn set_head(&mut self, field: HeadField) {
        set_head(&mut self.store.head, field);
    }

    fn tally(&self) -> [u64; 3] {
        self.store.tally.words()
    }

    fn set_tally(&mut self, field: TallyField) {
        set_tally(&mut self.store.tally, field);
    }

    fn answer(&mut self, call: &Call) -> String {
        let Reply { answer, words } = self.serve(call);
        format!("{answer}{}", words_text(&words))
    }
}

fn set_head(head: &mut Head, field: HeadField) {
    match field {
        HeadField::Used(value) => head.used = value,
        HeadField::Oldest(value) => head.oldest = value,
        HeadField::Checkpoint(value) => head.checkpoint = value,
        HeadField::Tip(value) => head.tip = value,
        HeadField::Depth(value) => head.depth = value,
        HeadField::Held(slot, value) => head.held[slot] = value,
        HeadField::Issued(slot, value) => head.issued[slot] = value,
        HeadField::Ends(mark, value) => head.ends[mark] = value,
    }
}

fn set_tally(tally: &mut Tally, field: TallyField) {
    match field {
        TallyField::Committed(value) => tally.committed = value,
        TallyField::RolledBack(value) => tally.rolled_back = value,
        TallyField::Flushed(value) => tally.flushed = value,
    }
}
