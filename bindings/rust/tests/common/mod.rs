//! What several tests need.
#![allow(dead_code)]

use cechnuol::Caller::{Desk, Foyer};
use cechnuol::{Entry, Head, Quote, Refusal, Since, Store, Tally};
use std::path::Path;

/// State 1 in the table, with offers 5 and 9; a step to state 2 above it; slot 3 open since state 1.
pub fn store() -> Store {
    let mut store = Store::new(8, 16).expect("a table and a journal of these lengths");
    store.commit(&[Entry::put(5, 1200), Entry::put(9, 700)]).expect("two entries");
    store.flush(1).expect("a state that there is");
    store.issue(Desk, 3, &mut [Entry::ask(5)]).expect("a slot that is closed");
    store.commit(&[Entry::put(5, 1100), Entry::remove(9), Entry::put(11, 0)]).expect("three entries");
    store
}

/// The image of state 1 of that store.
pub const IMAGE: [u8; 22] =
    [0, 0, 0, 1, 0, 2, 0x80, 0, 0, 5, 0, 0, 0x04, 0xB0, 0x80, 0, 0, 9, 0, 0, 0x02, 0xBC];

/// The image of state 2, the tip.
pub const TIP_IMAGE: [u8; 22] =
    [0, 0, 0, 2, 0, 2, 0x80, 0, 0, 5, 0, 0, 0x04, 0x4C, 0x80, 0, 0, 11, 0, 0, 0, 0];

/// The sheet of state 1: row 0 with seats 5 and 9.
pub const SHEET: [u8; 24] =
    [0, 0, 0, 1, 0, 0, 0, 1, 0, 0, 0, 0, 0x04, 0x40, 0, 0, 0, 0, 0x04, 0xB0, 0, 0, 0x02, 0xBC];

/// The sheet of state 2: row 0 with seats 5 and 11.
pub const TIP_SHEET: [u8; 24] =
    [0, 0, 0, 2, 0, 0, 0, 1, 0, 0, 0, 0, 0x04, 0x10, 0, 0, 0, 0, 0x04, 0x4C, 0, 0, 0, 0];

/// A store of zeros, of any lengths.
pub fn of_lengths(table: usize, journal: usize) -> Store {
    Store::from_parts(vec![0; table], vec![0; journal], Head::default(), Tally::default())
}

/// The store with some words of its head as given.
pub fn with_head(store: &Store, words: &[(usize, u64)]) -> Store {
    let (table, journal, head, tally) = store.clone().into_parts();
    let mut head = *head.words();
    words.iter().for_each(|&(at, word)| head[at] = word);
    Store::from_parts(table, journal, Head::from_words(head), tally)
}

/// What a lookup gives that finds the offer named by the step to a state.
pub fn since(state: u32, price: Option<u32>) -> Result<Quote, Refusal> {
    Ok(Quote { price, since: Since::State(state) })
}

/// What a lookup gives that finds the offer named by no step.
pub fn by_table(price: Option<u32>) -> Result<Quote, Refusal> {
    Ok(Quote { price, since: Since::Table })
}

/// A call on a store that gives no value.
pub type Call = fn(&mut Store) -> Result<(), Refusal>;

/// A call of each kind that the store of [`store`] accepts, from the foyer too where it has slots of its own.
pub const CALLS: [(&str, Call); 19] = [
    ("clear", |store| store.clear(0)),
    ("load", |store| store.load(0, &IMAGE)),
    ("load_sheet", |store| store.load_sheet(0, &SHEET)),
    ("write_image", |store| store.write_image(&mut [0; 64]).map(drop)),
    ("write_state_image of the checkpoint", |store| store.write_state_image(1, &mut [0; 64]).map(drop)),
    ("write_state_image of the tip", |store| store.write_state_image(2, &mut [0; 64]).map(drop)),
    ("write_sheet", |store| store.write_sheet(&mut [0; 64]).map(drop)),
    ("write_state_sheet of the checkpoint", |store| store.write_state_sheet(1, &mut [0; 64]).map(drop)),
    ("write_state_sheet of the tip", |store| store.write_state_sheet(2, &mut [0; 64]).map(drop)),
    ("restart", |store| store.restart(&mut [0; 64])),
    ("commit", |store| store.commit(&[Entry::put(7, 7)])),
    ("roll_back", |store| store.roll_back(1)),
    ("flush", |store| store.flush(2)),
    ("look_up", |store| store.look_up(Desk, 5, 2).map(drop)),
    ("look_up of the foyer", |store| store.look_up(Foyer, 5, 2).map(drop)),
    ("issue", |store| store.issue(Desk, 0, &mut [Entry::ask(5)])),
    ("issue of the foyer", |store| store.issue(Foyer, 6, &mut [Entry::ask(5)])),
    ("forward", |store| store.forward(Desk, 3, 2, &mut [Entry::put(5, 1200)])),
    ("release", |store| store.release(Desk, 3)),
];

/// A call on a store is refused so, and leaves the store as it came.
pub fn refused<T>(store: &Store, wanted: Refusal, call: impl FnOnce(&mut Store) -> Result<T, Refusal>) {
    let mut lent = store.clone();
    let answer = call(&mut lent).map(drop);
    assert_eq!(answer, Err(wanted), "{wanted}");
    assert!(lent == *store, "{wanted:?} leaves the store as it came");
}

/// The C header: beside the crate in the tarball, or in the repository.
pub fn header() -> String {
    let folder = Path::new(env!("CARGO_MANIFEST_DIR"));
    let files = ["../include/cechnuol.h", "../../include/cechnuol.h"];
    let text = files.iter().find_map(|file| std::fs::read_to_string(folder.join(file)).ok());
    text.unwrap_or_else(|| panic!("the header is neither of {files:?} from {}", folder.display()))
}

/// Random numbers, by splitmix64.
pub struct Rng(pub u64);

impl Rng {
    pub fn bits(&mut self) -> u64 {
        self.0 = self.0.wrapping_add(0x9E37_79B9_7F4A_7C15);
        let mut bits = self.0;
        bits = (bits ^ (bits >> 30)).wrapping_mul(0xBF58_476D_1CE4_E5B9);
        bits = (bits ^ (bits >> 27)).wrapping_mul(0x94D0_49BB_1331_11EB);
        bits ^ (bits >> 31)
    }

    /// A number below a bound above 0.
    pub fn below(&mut self, bound: usize) -> usize {
        (self.bits() % bound as u64) as usize
    }

    /// So many words: of all bits, or entries of small offers, which are often a list.
    pub fn words(&mut self, count: usize) -> Vec<u64> {
        let any = self.below(2) == 0;
        let step = 1 + self.below(3) as u32;
        let mut offer = 0;
        let mut word = |_| {
            offer += step * u32::from(self.below(20) != 0);
            match self.below(3) {
                0 => Entry::remove(offer).word(),
                _ if any => self.bits(),
                _ => Entry::put(offer, self.bits() as u32).word(),
            }
        };
        (0..count).map(&mut word).collect()
    }

    /// So many random bytes.
    pub fn bytes(&mut self, count: usize) -> Vec<u8> {
        (0..count).map(|_| self.bits() as u8).collect()
    }
}
