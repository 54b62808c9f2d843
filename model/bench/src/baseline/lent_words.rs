//! The baseline given what a C function is given: head and tally as words that may hold anything. They are tested and unpacked
//! before a call, and packed again after it where it has changed them.

use super::head::{Head, Tally, DEPTH, HEAD_WORDS};
use super::refusal::Refusal;
use super::store::{lengths_fit, Store};

/// The words of a tally.
const TALLY_WORDS: usize = 3;

/// The memory of a store, all of it words.
#[derive(Clone, Debug, PartialEq, Eq)]
pub struct LentWords {
    pub table: Vec<u64>,
    pub journal: Vec<u64>,
    pub head: [u64; HEAD_WORDS],
    pub tally: [u64; TALLY_WORDS],
}

/// Whether words fit the fields of a head: state numbers and the depth are below 2^32, and flags are 0 or 1.
fn fits(words: &[u64; HEAD_WORDS]) -> bool {
    let are_numbers = |words: &[u64]| words.iter().all(|&word| word < 1 << 32);
    are_numbers(&words[1..4])
        && words[4..12].iter().all(|&word| word < 2)
        && are_numbers(&words[12..20])
        && are_numbers(&words[DEPTH..])
}

impl LentWords {
    /// A call that tests the store.
    pub fn call<T>(&mut self, call: impl FnOnce(&mut Store) -> Result<T, Refusal>) -> Result<T, Refusal> {
        self.test_words()?;
        self.any(call)
    }

    /// A call that tests nothing of head and tally.
    pub fn any<T>(&mut self, call: impl FnOnce(&mut Store) -> Result<T, Refusal>) -> Result<T, Refusal> {
        let (mut head, mut tally) = self.unpacked();
        let mut store =
            Store { table: &mut self.table, journal: &mut self.journal, head: &mut head, tally: &mut tally };
        let answer = call(&mut store)?;
        head.put_words(&mut self.head);
        self.tally = [tally.committed, tally.rolled_back, tally.flushed];
        Ok(answer)
    }

    /// A call that changes nothing of the store, so that nothing is packed.
    pub fn query<T>(&mut self, query: impl FnOnce(&Store) -> Result<T, Refusal>) -> Result<T, Refusal> {
        self.test_words()?;
        let (mut head, mut tally) = self.unpacked();
        query(&Store {
            table: &mut self.table,
            journal: &mut self.journal,
            head: &mut head,
            tally: &mut tally,
        })
    }

    /// Ground 1, and of ground 2 what concerns the head's words.
    fn test_words(&self) -> Result<(), Refusal> {
        Refusal::Lengths.unless(lengths_fit(&self.table, &self.journal))?;
        Refusal::Unsound.unless(fits(&self.head))
    }

    fn unpacked(&self) -> (Head, Tally) {
        let [committed, rolled_back, flushed] = self.tally;
        (Head::of_words(&self.head), Tally { committed, rolled_back, flushed })
    }
}
