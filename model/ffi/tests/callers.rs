//! The number of whoever calls: 0 is the desk, and any other the foyer.

use cechnuol::raw::DESK;
use ffi::differ::Pair;
use ffi::said::{Said, UNTOUCHED};
use ffi::{Lent, BY_TABLE, FOYERS, NO_PRICE};
use model::gen::{items, Item};
use model::script::Command;
use model::word::entry;
use std::collections::BTreeSet;

/// The empty map as state 0.
fn store() -> Lent {
    let mut lent = Lent::of_lengths(4, 16);
    assert_eq!(lent.lend().clear(0), 0);
    lent
}

/// So many words that ask.
fn asks(count: u32) -> Vec<u64> {
    (0..count).map(|offer| entry(offer, None)).collect()
}

/// What an issue of so many words answers.
fn issue(lent: &mut Lent, caller: u32, slot: usize, count: u32) -> u64 {
    lent.lend().issue(caller, slot, &mut asks(count))
}

/// What a forward to state 0 of so many words answers.
fn forward(lent: &mut Lent, caller: u32, slot: usize, count: u32) -> u64 {
    lent.lend().forward(caller, slot, 0, &mut asks(count))
}

#[test]
fn number_0_is_the_desk() {
    let mut lent = store();
    for (slot, count, code) in
        [(5, 65, 6), (5, 64, 0), (4, 17, 0), (0, 16, 0), (6, 0, 19), (7, 17, 19), (8, 0, 3)]
    {
        assert_eq!(issue(&mut lent, DESK, slot, count), code, "issue {slot} of {count}");
    }
    for (slot, count, code) in
        [(5, 65, 6), (5, 64, 0), (4, 17, 0), (3, 0, 5), (6, 0, 19), (7, 0, 19), (8, 0, 3)]
    {
        assert_eq!(forward(&mut lent, DESK, slot, count), code, "forward {slot} of {count}");
    }
    for (slot, code) in [(0, 0), (0, 5), (5, 5), (6, 19), (7, 19), (8, 3)] {
        assert_eq!(lent.lend().release(DESK, slot), code, "release {slot}");
    }
}

#[test]
fn every_other_number_is_the_foyer() {
    for caller in FOYERS {
        let mut lent = store();
        for (slot, count, code) in
            [(6, 65, 6), (6, 64, 18), (6, 17, 18), (6, 16, 0), (7, 15, 0), (5, 0, 19), (0, 17, 19), (8, 0, 3)]
        {
            assert_eq!(issue(&mut lent, caller, slot, count), code, "{caller}: issue {slot} of {count}");
        }
        for (slot, count, code) in
            [(6, 65, 6), (6, 64, 18), (6, 17, 18), (6, 16, 0), (6, 0, 5), (5, 0, 19), (0, 0, 19), (8, 0, 3)]
        {
            assert_eq!(forward(&mut lent, caller, slot, count), code, "{caller}: forward {slot} of {count}");
        }
        for (slot, code) in [(7, 0), (7, 5), (6, 5), (5, 19), (0, 19), (8, 3)] {
            assert_eq!(lent.lend().release(caller, slot), code, "{caller}: release {slot}");
        }
        for (state, wanted) in [(0, (NO_PRICE, UNTOUCHED, BY_TABLE)), (1, (11, UNTOUCHED, UNTOUCHED))] {
            let (mut price, mut since) = (UNTOUCHED, UNTOUCHED);
            let code = lent.to_read().look_up(caller, 5, state, &mut price, &mut since);
            assert_eq!((code, price, since), wanted, "{caller}: look up at {state}");
        }
    }
}

/// What a call answered, without its values: the code, whether a price was given, and what was said of how fresh it is.
#[derive(Clone, Copy, Debug, PartialEq, Eq, PartialOrd, Ord)]
struct Kind {
    code: u64,
    valued: bool,
    fresh: &'static str,
}

impl Kind {
    /// Of an answer that gives nothing.
    const fn bare(code: u64) -> Kind {
        Kind { code, valued: false, fresh: "nothing" }
    }

    fn of(said: &Said) -> Kind {
        let fresh = match said.since {
            UNTOUCHED => "nothing",
            BY_TABLE => "table",
            since if since < BY_TABLE => "state",
            _ => "no state",
        };
        Kind { code: said.code, valued: said.value != UNTOUCHED, fresh }
    }
}

/// What a library says that is given this number for the foyer, in generated scripts: the foyer's calls with what they answer.
/// The model must say the same.
fn kinds(foyer: u32) -> BTreeSet<(&'static str, Kind)> {
    let mut kinds = BTreeSet::new();
    for seed in 0..40 {
        let mut pair = Pair::default();
        pair.library.foyer = foyer;
        for item in items(seed, 300).0 {
            let Item::Command(command) = item else { continue };
            if let Command::Call(call) = &command {
                if pair.library.number_of(call) == foyer {
                    kinds.insert((call.name(), Kind::of(&pair.library.clone().serve(call))));
                }
            }
            pair.step(&command).unwrap_or_else(|it| panic!("{foyer}, seed {seed}: {it}"));
        }
    }
    kinds
}

/// Each call of the foyer is accepted, and refused on each ground that it can meet, by whichever number. A lookup gives a price
/// or none, since a state or by the table, and a refused one gives nothing.
#[test]
fn every_answer_by_every_number() {
    let mut wanted = BTreeSet::new();
    for fresh in ["state", "table"] {
        wanted.insert(("look_up", Kind { code: 0, valued: true, fresh }));
        wanted.insert(("look_up", Kind { code: NO_PRICE, valued: false, fresh }));
    }
    let mut add = |name, codes: &[u64]| wanted.extend(codes.iter().map(|&code| (name, Kind::bare(code))));
    add("look_up", &[1, 2, 6, 11]);
    add("issue", &[0, 1, 2, 3, 19, 4, 6, 18]);
    add("forward", &[0, 1, 2, 3, 19, 5, 6, 18, 11]);
    add("release", &[0, 1, 2, 3, 19, 5]);
    for foyer in FOYERS {
        assert_eq!(kinds(foyer), wanted, "{foyer}");
    }
}
