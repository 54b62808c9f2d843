//! The static library of the proved unit, held to the model. It is called through the plain functions of the crate
//! `cechnuol` ([`cechnuol::raw`]), which show every code and every word.
//!
//! Nothing checks that crate's declarations against crates/cechnuol; the tests and [`differ`] do.

use cechnuol::raw::{StoreMut, StoreRef, FOYER};
use cechnuol::{HEAD_WORDS, TALLY_WORDS};

pub mod differ;
pub mod library;
pub mod probe;
pub mod said;

pub use cechnuol::raw::{BY_TABLE, NO_PRICE};

/// Numbers that are the foyer's as a caller: its own, and others, among them such as end in zeros.
pub const FOYERS: [u32; 6] = [FOYER, 2, 1 << 8, 1 << 16, 1 << 31, u32::MAX];

/// A store's memory, to be lent as words: any words, also such as no store has.
#[derive(Clone, Debug, PartialEq, Eq)]
pub struct Lent {
    pub table: Vec<u64>,
    pub journal: Vec<u64>,
    pub head: [u64; HEAD_WORDS],
    pub tally: [u64; TALLY_WORDS],
}

impl Lent {
    /// A store of these lengths, all zero.
    pub fn of_lengths(table: usize, journal: usize) -> Lent {
        Lent {
            table: vec![0; table],
            journal: vec![0; journal],
            head: [0; HEAD_WORDS],
            tally: [0; TALLY_WORDS],
        }
    }

    /// The store as a call is lent it that may change it.
    #[inline]
    pub fn lend(&mut self) -> StoreMut<'_> {
        let Lent { table, journal, head, tally } = self;
        StoreMut { table, journal, head, tally }
    }

    /// The store as a query is lent it.
    #[inline]
    pub fn to_read(&self) -> StoreRef<'_> {
        StoreRef { table: &self.table, journal: &self.journal, head: &self.head }
    }
}
