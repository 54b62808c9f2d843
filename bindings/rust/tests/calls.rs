//! Every call accepted, and refused on each ground that it can meet.

mod common;

use cechnuol::raw::{self, DEPTH, ENDS, TAKEN, TIP};
use cechnuol::Caller::{Desk, Foyer};
use cechnuol::Refusal::{self, *};
use cechnuol::{image_bytes_of, price_batch, sheet_bytes_of, Entry, Head, Order, Store, Tally};
use common::{by_table, of_lengths, refused, since, store, with_head};
use common::{CALLS, IMAGE, SHEET, TIP_IMAGE, TIP_SHEET};

#[test]
fn every_call_tests_the_lengths() {
    for (table, journal) in [(0, 16), (8, 0), (8001, 16), (8, 4097)] {
        for (_, call) in CALLS {
            refused(&of_lengths(table, journal), Lengths, call);
        }
    }
}

#[test]
fn every_call_but_clear_and_the_loads_tests_the_store() {
    let damages = [(TIP, 1 << 32), (TAKEN, 2), (ENDS, 100), (0, 9), (DEPTH, 64), (DEPTH, 1 << 32)];
    for damage in damages {
        let damaged = with_head(&store(), &[damage]);
        for (name, call) in CALLS {
            match name {
                "clear" | "load" | "load_sheet" => assert_eq!(call(&mut damaged.clone()), Ok(()), "{name}"),
                _ => refused(&damaged, Unsound, call),
            }
        }
    }
}

#[test]
fn every_call_is_accepted() {
    for (name, call) in CALLS {
        assert_eq!(call(&mut store()), Ok(()), "{name}");
    }
}

#[test]
fn clear() {
    let mut store = store();
    assert_eq!(store.clear(0), Ok(()));
    assert_eq!(store, of_lengths(8, 16));
    assert_eq!(store.clear(63), Ok(()));
    assert_eq!(store, with_head(&of_lengths(8, 16), &[(DEPTH, 63)]));
    refused(&store, TooDeep, |store| store.clear(64));
    refused(&of_lengths(0, 16), Lengths, |store| store.clear(64));
}

#[test]
fn load() {
    let mut store = store();
    assert_eq!(store.load(0, &IMAGE), Ok(()));
    assert_eq!(store.entries(), [Entry::put(5, 1200), Entry::put(9, 700)]);
    let head = store.head();
    assert_eq!((head.oldest(), head.checkpoint(), head.tip(), head.used()), (1, 1, 1, 2));
    assert_eq!((head.is_open(3), store.tally()), (false, &Tally::default()));
    refused(&store, BadImage, |store| store.load(0, &[]));
    refused(&store, BadImage, |store| store.load(0, &IMAGE[..21]));
    refused(&store, BadImage, |store| store.load(0, &[&IMAGE[..], &[0]].concat()));
    refused(&of_lengths(1, 1), TableFull, |store| store.load(0, &IMAGE));
    // the depth is tested before the bytes
    refused(&store, TooDeep, |store| store.load(64, &[]));
    refused(&store, BadImage, |store| store.load(63, &[]));
    refused(&of_lengths(1, 1), TooDeep, |store| store.load(64, &IMAGE));
    refused(&of_lengths(1, 0), Lengths, |store| store.load(64, &IMAGE));
    assert_eq!((store.load(63, &IMAGE), store.head().depth()), (Ok(()), 63));
}

/// A sheet loads as the image of its state does: the same table, journal, head and tally.
#[test]
fn load_sheet() {
    let [mut by_image, mut by_sheet] = [store(), store()];
    for depth in [0, 63] {
        assert_eq!((by_image.load(depth, &IMAGE), by_sheet.load_sheet(depth, &SHEET)), (Ok(()), Ok(())));
        assert_eq!((&by_sheet, by_sheet.head().depth()), (&by_image, depth));
    }
    assert_eq!(by_sheet.load_sheet(0, &[0, 0, 0, 9, 0, 0, 0, 0]), Ok(()));
    assert_eq!((by_sheet.head().tip(), by_sheet.entries()), (9, &[][..]));
    refused(&by_sheet, BadImage, |store| store.load_sheet(0, &[]));
    refused(&by_sheet, BadImage, |store| store.load_sheet(0, &SHEET[..23]));
    refused(&by_sheet, BadImage, |store| store.load_sheet(0, &[&SHEET[..], &[0]].concat()));
    refused(&by_sheet, BadImage, |store| store.load_sheet(0, &IMAGE));
    refused(&by_sheet, BadImage, |store| store.load(0, &SHEET));
    refused(&of_lengths(1, 1), TableFull, |store| store.load_sheet(0, &SHEET));
    refused(&by_sheet, TooDeep, |store| store.load_sheet(64, &[]));
    refused(&by_sheet, BadImage, |store| store.load_sheet(63, &[]));
    refused(&of_lengths(1, 1), TooDeep, |store| store.load_sheet(64, &SHEET));
    refused(&of_lengths(1, 0), Lengths, |store| store.load_sheet(64, &SHEET));
}

#[test]
fn write_image() {
    let mut bytes = [0xAA; 25];
    assert_eq!(store().write_image(&mut bytes), Ok(22));
    assert_eq!(bytes[..], [&TIP_IMAGE[..], &[0xAA; 3]].concat());
    let mut bytes = [0xAA; 21];
    refused(&store(), OutputShort, |store| store.write_image(&mut bytes));
    assert_eq!(bytes, [0xAA; 21]);
}

#[test]
fn write_state_image() {
    for (state, image) in [(1, IMAGE), (2, TIP_IMAGE)] {
        let mut bytes = [0xAA; 25];
        assert_eq!(store().write_state_image(state, &mut bytes), Ok(22));
        assert_eq!(bytes[..], [&image[..], &[0xAA; 3]].concat());
        refused(&store(), OutputShort, |store| store.write_state_image(state, &mut bytes[..21]));
        assert_eq!(bytes[..22], image);
    }
    for state in [0, 3, u32::MAX] {
        let mut bytes = [0xAA; 25];
        refused(&store(), StateRange, |store| store.write_state_image(state, &mut bytes));
        refused(&store(), StateRange, |store| store.write_state_image(state, &mut []));
        assert_eq!(bytes, [0xAA; 25]);
    }
}

#[test]
fn write_sheet() {
    let mut bytes = [0xAA; 27];
    assert_eq!(store().write_sheet(&mut bytes), Ok(24));
    assert_eq!(bytes[..], [&TIP_SHEET[..], &[0xAA; 3]].concat());
    let mut bytes = [0xAA; 23];
    refused(&store(), OutputShort, |store| store.write_sheet(&mut bytes));
    assert_eq!(bytes, [0xAA; 23]);
}

#[test]
fn write_state_sheet() {
    for (state, sheet) in [(1, SHEET), (2, TIP_SHEET)] {
        let mut bytes = [0xAA; 27];
        assert_eq!(store().write_state_sheet(state, &mut bytes), Ok(24));
        assert_eq!(bytes[..], [&sheet[..], &[0xAA; 3]].concat());
        refused(&store(), OutputShort, |store| store.write_state_sheet(state, &mut bytes[..23]));
        assert_eq!(bytes[..24], sheet);
    }
    for state in [0, 3, u32::MAX] {
        let mut bytes = [0xAA; 27];
        refused(&store(), StateRange, |store| store.write_state_sheet(state, &mut bytes));
        refused(&store(), StateRange, |store| store.write_state_sheet(state, &mut []));
        assert_eq!(bytes, [0xAA; 27]);
    }
}

/// A table of one word: image and sheet of a state with two offers are written, and loaded where there is room for it.
#[test]
fn a_state_that_the_table_has_no_room_for() {
    let mut store = of_lengths(1, 4);
    assert_eq!(store.commit(&[Entry::put(5, 1200), Entry::put(9, 700)]), Ok(()));
    refused(&store, TableFull, |store| store.flush(1));
    let mut bytes = [0xAA; 22];
    assert_eq!((store.write_image(&mut bytes), bytes), (Ok(22), IMAGE));
    assert_eq!(store.write_state_image(1, &mut bytes), Ok(22));
    refused(&store, TableFull, |store| store.load(0, &bytes));
    let mut longer = of_lengths(2, 1);
    assert_eq!(longer.load(0, &bytes), Ok(()));
    assert_eq!(longer.entries(), [Entry::put(5, 1200), Entry::put(9, 700)]);
    let mut bytes = [0xAA; 24];
    assert_eq!((store.write_sheet(&mut bytes), bytes), (Ok(24), SHEET));
    refused(&store, TableFull, |store| store.load_sheet(0, &bytes));
    let mut by_sheet = of_lengths(2, 1);
    assert_eq!((by_sheet.load_sheet(0, &bytes), by_sheet), (Ok(()), longer));
}

/// Enough bytes for the image of every state, whether or not an open slot holds steps below the checkpoint.
#[test]
fn image_bytes() {
    assert_eq!(of_lengths(8, 16).image_bytes(), 6);
    let mut store = store();
    assert_eq!(store.image_bytes(), image_bytes_of(2 + 3));
    assert_eq!(store.commit(&[]), Ok(()));
    assert_eq!(store.commit(&[Entry::remove(7)]), Ok(()));
    assert_eq!(store.image_bytes(), image_bytes_of(2 + 4));
    assert_eq!(store.flush(2), Ok(()));
    assert_eq!((store.head().oldest(), store.image_bytes()), (1, image_bytes_of(2 + 1)));
    assert_eq!(store.release(Desk, 3), Ok(()));
    assert_eq!((store.head().oldest(), store.image_bytes()), (2, image_bytes_of(2 + 1)));
    assert_eq!(store.flush(4), Ok(()));
    assert_eq!(store.image_bytes(), image_bytes_of(2));
}

/// Enough bytes for the sheet of every state: as if each offer were in a row of its own.
#[test]
fn sheet_bytes() {
    assert_eq!(of_lengths(8, 16).sheet_bytes(), 8);
    let mut store = store();
    assert_eq!(store.sheet_bytes(), sheet_bytes_of(2 + 3));
    assert_eq!(store.commit(&[Entry::put(64, 1), Entry::put(96, 1)]), Ok(()));
    assert_eq!(store.sheet_bytes(), sheet_bytes_of(2 + 5));
    let mut bytes = vec![0; store.sheet_bytes()];
    assert_eq!(store.write_sheet(&mut bytes), Ok(8 + 3 * 8 + 4 * 4));
}

#[test]
fn restart() {
    let (mut store, mut bytes) = (store(), [0xAA; 23]);
    refused(&store, OutputShort, |store| store.restart(&mut bytes[..21]));
    assert_eq!(bytes, [0xAA; 23]);
    assert_eq!(store.restart(&mut bytes), Ok(()));
    assert_eq!(bytes[..], [&IMAGE[..], &[0xAA]].concat());
    let mut loaded = of_lengths(8, 16);
    assert_eq!(loaded.load(0, &IMAGE), Ok(()));
    assert_eq!(store, loaded);
}

/// A restart keeps the depth.
#[test]
fn restart_of_a_deep_store() {
    let mut store = with_head(&store(), &[(DEPTH, 2)]);
    assert_eq!((store.restart(&mut [0; 22]), store.head().depth()), (Ok(()), 2));
    (0..2).for_each(|_| assert_eq!(store.commit(&[]), Ok(())));
    refused(&store, TooDeep, |store| store.flush(2));
    assert_eq!((store.load(0, &IMAGE), store.commit(&[]), store.flush(2)), (Ok(()), Ok(()), Ok(())));
}

/// A restart goes by the image of the checkpoint, where that of the tip is longer and where it is shorter.
#[test]
fn restart_beside_a_tip_of_another_length() {
    let mut longer = store();
    assert_eq!(longer.commit(&[Entry::put(1, 1), Entry::put(2, 2)]), Ok(()));
    let mut bytes = [0xAA; 22];
    refused(&longer, OutputShort, |store| store.write_image(&mut bytes));
    assert_eq!((longer.restart(&mut bytes), bytes), (Ok(()), IMAGE));
    let mut shorter = store();
    assert_eq!(shorter.commit(&[Entry::remove(5), Entry::remove(11)]), Ok(()));
    assert_eq!(shorter.write_image(&mut bytes[..6]), Ok(6));
    refused(&shorter, OutputShort, |store| store.restart(&mut bytes[..21]));
    refused(&shorter, OutputShort, |store| store.restart(&mut bytes[..6]));
    assert_eq!((shorter.restart(&mut bytes), bytes), (Ok(()), IMAGE));
}

#[test]
fn commit() {
    let mut store = store();
    assert_eq!(store.commit(&[Entry::put(5, 1000)]), Ok(()));
    assert_eq!(store.look_up(Desk, 5, 3), since(3, Some(1000)));
    assert_eq!(store.look_up(Desk, 5, 2), since(2, Some(1100)));
    assert_eq!((store.head().held_steps(), store.head().ends()), (2, &[3, 4][..]));
    refused(&store, BadList, |store| store.commit(&[Entry::put(5, 1), Entry::put(5, 2)]));
    refused(&store, BadList, |store| store.commit(&[Entry::put(5, 1), Entry::put(4, 2)]));
    refused(&store, BadList, |store| store.commit(&[Entry::from_word(1)]));
    let rising: Vec<Entry> = (0..65).map(Entry::remove).collect();
    refused(&store, BadList, |store| store.commit(&rising));
    refused(&store, JournalFull, |store| store.commit(&rising[..13]));
    assert_eq!(store.commit(&rising[..12]), Ok(()));
    let mut last = of_lengths(1, 1);
    assert_eq!(last.load(0, &[0xFF, 0xFF, 0xFF, 0xFF, 0, 0]), Ok(()));
    refused(&last, LastState, |store| store.commit(&[]));
}

/// The steps are full with a slot open since the oldest state: a flush alone does not help, its release does.
#[test]
fn room_for_steps() {
    let mut store = of_lengths(4, 64);
    assert_eq!(store.issue(Foyer, 6, &mut [Entry::ask(5)]), Ok(()));
    (0..64).for_each(|price| assert_eq!(store.commit(&[Entry::put(5, price)]), Ok(())));
    refused(&store, StepsFull, |store| store.commit(&[]));
    assert_eq!(store.flush(64), Ok(()));
    assert_eq!(store.issue(Desk, 2, &mut [Entry::ask(5)]), Ok(()));
    refused(&store, StepsFull, |store| store.commit(&[]));
    assert_eq!((store.head().oldest_slot(), store.head().issued(6)), (Some(6), Some(0)));
    assert_eq!(store.release(Foyer, 6), Ok(()));
    assert_eq!((store.head().held_steps(), store.head().oldest_slot()), (0, Some(2)));
    assert_eq!(store.commit(&[]), Ok(()));
}

#[test]
fn roll_back() {
    let mut store = store();
    refused(&store, StateRange, |store| store.roll_back(0));
    refused(&store, StateRange, |store| store.roll_back(3));
    assert_eq!(store.roll_back(1), Ok(()));
    assert_eq!((store.head().tip(), store.tally().rolled_back()), (1, 1));
    assert_eq!(store.look_up(Desk, 5, 2), Err(StateRange));
}

#[test]
fn flush() {
    let mut store = store();
    refused(&store, StateRange, |store| store.flush(0));
    refused(&store, StateRange, |store| store.flush(u32::MAX));
    assert_eq!(store.flush(2), Ok(()));
    assert_eq!(store.entries(), [Entry::put(5, 1100), Entry::put(11, 0)]);
    assert_eq!((store.tally().committed(), store.tally().flushed()), (2, 2));
    let mut small = of_lengths(1, 4);
    assert_eq!(small.commit(&[Entry::put(1, 1), Entry::put(2, 2)]), Ok(()));
    refused(&small, TableFull, |store| store.flush(1));
}

/// A depth of 2 on a table with room for one offer, which state 1 and those above it have too many of.
#[test]
fn flush_of_a_deep_store() {
    let mut store = of_lengths(1, 4);
    assert_eq!((store.clear(2), store.flush(0)), (Ok(()), Ok(())));
    assert_eq!(store.commit(&[Entry::put(1, 1), Entry::put(2, 2)]), Ok(()));
    assert_eq!((store.commit(&[]), store.head().highest_flush()), (Ok(()), 0));
    refused(&store, TooDeep, |store| store.flush(1));
    assert_eq!((store.commit(&[]), store.head().highest_flush()), (Ok(()), 1));
    refused(&store, StateRange, |store| store.flush(4));
    refused(&store, TooDeep, |store| store.flush(3));
    refused(&store, TooDeep, |store| store.flush(2));
    refused(&store, TableFull, |store| store.flush(1));
    refused(&with_head(&store, &[(TAKEN, 2)]), Unsound, |store| store.flush(2));
    let before = store.clone();
    assert_eq!((store.flush(0), &store), (Ok(()), &before));
    // no depth bars a rollback, and after it there is nothing to flush
    assert_eq!((store.roll_back(1), store.head().depth()), (Ok(()), 2));
    refused(&store, TooDeep, |store| store.flush(1));
    assert_eq!((store.roll_back(0), store.flush(0)), (Ok(()), Ok(())));
}

/// At the last state numbers the sum of state and depth has more than 32 bits.
#[test]
fn flush_at_the_last_states() {
    let mut store = of_lengths(1, 1);
    assert_eq!(store.load(1, &[0xFF, 0xFF, 0xFF, 0xFA, 0, 0]), Ok(()));
    (0..5).for_each(|_| assert_eq!(store.commit(&[]), Ok(())));
    refused(&store, TooDeep, |store| store.flush(u32::MAX));
    assert_eq!((store.head().highest_flush(), store.flush(u32::MAX - 1)), (u32::MAX - 1, Ok(())));
    refused(&store, TooDeep, |store| store.flush(u32::MAX));
}

#[test]
fn look_up() {
    let store = store();
    let quotes = [
        (5, 1, by_table(Some(1200))),
        (9, 1, by_table(Some(700))),
        (11, 1, by_table(None)),
        (5, 2, since(2, Some(1100))),
        (9, 2, since(2, None)),
        (11, 2, since(2, Some(0))),
        (7, 2, by_table(None)),
    ];
    for caller in [Desk, Foyer] {
        for (offer, state, quote) in quotes {
            assert_eq!(store.look_up(caller, offer, state), quote, "offer {offer} at {state}");
        }
        for state in [0, 3, u32::MAX] {
            assert_eq!(store.look_up(caller, 5, state), Err(StateRange));
        }
        for offer in [1 << 31, u32::MAX] {
            assert_eq!(store.look_up(caller, offer, 1), Err(BadList));
        }
        assert_eq!(store.look_up(caller, (1 << 31) - 1, 1), by_table(None));
    }
}

/// Offer 5 is put, left alone, put at the price that it has, and removed; offer 9 comes between. What a flush makes the table's
/// is by the table, and what lies above it has the number that it had.
#[test]
fn since_when() {
    let mut store = of_lengths(4, 16);
    assert_eq!(store.commit(&[Entry::put(5, 1200)]), Ok(()));
    assert_eq!(store.flush(1), Ok(()));
    let lists = [&[][..], &[Entry::put(9, 700)], &[Entry::put(5, 1200)], &[Entry::remove(5)], &[]];
    lists.iter().for_each(|list| assert_eq!(store.commit(list), Ok(())));
    let quoted = |store: &Store, offer| [1, 2, 3, 4, 5, 6].map(|state| store.look_up(Desk, offer, state));
    let (early, put) = (by_table(Some(1200)), since(4, Some(1200)));
    assert_eq!(quoted(&store, 5), [early, early, early, put, since(5, None), since(5, None)]);
    let (none, put) = (by_table(None), since(3, Some(700)));
    assert_eq!(quoted(&store, 9), [none, none, put, put, put, put]);
    assert_eq!(quoted(&store, 7), [none; 6]);

    assert_eq!(store.flush(4), Ok(()));
    let gone = Err(StateRange);
    assert_eq!(quoted(&store, 5), [gone, gone, gone, early, since(5, None), since(5, None)]);
    assert_eq!(quoted(&store, 9)[3..], [by_table(Some(700)); 3]);
    assert_eq!(store.flush(6), Ok(()));
    assert_eq!(store.look_up(Desk, 5, 6), none);
}

/// Steps that an open slot holds below the checkpoint are not searched.
#[test]
fn since_when_beside_a_read() {
    let mut store = store();
    assert_eq!(store.flush(2), Ok(()));
    assert_eq!((store.head().oldest(), store.head().held_steps()), (1, 1));
    assert_eq!(store.look_up(Desk, 5, 2), by_table(Some(1100)));
    assert_eq!(store.look_up(Desk, 9, 2), by_table(None));
    assert_eq!(store.commit(&[Entry::put(9, 1)]), Ok(()));
    assert_eq!(store.look_up(Desk, 9, 3), since(3, Some(1)));
}

/// A number that a rollback made free is that of the next commit, and the last number is a state's.
#[test]
fn since_when_at_other_numbers() {
    let mut store = store();
    assert_eq!((store.roll_back(1), store.commit(&[Entry::put(5, 1)])), (Ok(()), Ok(())));
    assert_eq!(store.look_up(Desk, 5, 2), since(2, Some(1)));
    assert_eq!(store.look_up(Desk, 9, 2), by_table(Some(700)));
    assert_eq!(store.load(0, &[0xFF, 0xFF, 0xFF, 0xFE, 0, 0]), Ok(()));
    assert_eq!(store.commit(&[Entry::put(5, 1)]), Ok(()));
    assert_eq!(store.look_up(Desk, 5, u32::MAX - 1), by_table(None));
    assert_eq!(store.look_up(Desk, 5, u32::MAX), since(u32::MAX, Some(1)));
}

/// What the plain function writes: both words where there is a price, the second alone where there is none, and neither where it
/// is refused.
#[test]
fn words_of_a_lookup() {
    let (store, short) = (store(), of_lengths(0, 16));
    let damaged = with_head(&store, &[(TAKEN, 2)]);
    let said = |store: &Store, offer, state| {
        [raw::DESK, raw::FOYER].map(|caller| {
            let (mut price, mut since) = (7, 8);
            (store.as_raw().look_up(caller, offer, state, &mut price, &mut since), price, since)
        })
    };
    assert_eq!(said(&store, 5, 1), [(raw::OK, 1200, raw::BY_TABLE); 2]);
    assert_eq!(said(&store, 5, 2), [(raw::OK, 1100, 2); 2]);
    assert_eq!(said(&store, 9, 2), [(raw::NO_PRICE, 7, 2); 2]);
    assert_eq!(said(&store, 11, 1), [(raw::NO_PRICE, 7, raw::BY_TABLE); 2]);
    assert_eq!(said(&short, 5, 1), [(1, 7, 8); 2]);
    assert_eq!(said(&damaged, 5, 1), [(2, 7, 8); 2]);
    assert_eq!(said(&store, 1 << 31, 1), [(6, 7, 8); 2]);
    assert_eq!(said(&store, 5, 0), [(11, 7, 8); 2]);
    assert_eq!(said(&store, 5, 3), [(11, 7, 8); 2]);
}

#[test]
fn issue() {
    let (mut store, mut reads) = (store(), [Entry::ask(5), Entry::ask(6)]);
    for (slot, refusal) in [(3, SlotTaken), (8, SlotRange), (usize::MAX, SlotRange)] {
        refused(&store, refusal, |store| store.issue(Desk, slot, &mut reads));
    }
    refused(&store, BadList, |store| store.issue(Desk, 0, &mut [Entry::put(5, 1)]));
    refused(&store, BadList, |store| store.issue(Desk, 0, &mut [Entry::ask(6), Entry::ask(5)]));
    assert_eq!(store.issue(Desk, 0, &mut reads), Ok(()));
    assert_eq!(reads, [Entry::put(5, 1200), Entry::remove(6)]);
    let open: Vec<bool> = (0..9).map(|slot| store.head().is_open(slot)).collect();
    assert_eq!(open, [true, false, false, true, false, false, false, false, false]);
}

#[test]
fn forward() {
    let (mut store, read) = (store(), [Entry::put(5, 1200)]);
    for (slot, state, refusal) in
        [(8, 2, SlotRange), (0, 2, SlotClosed), (3, 0, StateRange), (3, 3, StateRange)]
    {
        let mut reads = read;
        refused(&store, refusal, |store| store.forward(Desk, slot, state, &mut reads));
        assert_eq!(reads, read);
    }
    refused(&store, BadList, |store| store.forward(Desk, 3, 2, &mut [read[0]; 2]));
    let mut reads = read;
    assert_eq!(store.forward(Desk, 3, 2, &mut reads), Ok(()));
    assert_eq!((reads, store.head().is_open(3)), ([Entry::put(5, 1100)], false));
    refused(&store, SlotClosed, |store| store.forward(Desk, 3, 2, &mut reads));
}

#[test]
fn release() {
    let mut store = store();
    refused(&store, SlotRange, |store| store.release(Desk, 8));
    refused(&store, SlotClosed, |store| store.release(Desk, 4));
    assert_eq!(store.release(Desk, 3), Ok(()));
    assert_eq!(store.head().oldest_slot(), None);
}

/// Slots 3 and 6 are open; each caller's calls in a slot of the other's are refused, and change nothing.
#[test]
fn callers() {
    let (mut store, mut reads) = (store(), [Entry::ask(5), Entry::ask(9)]);
    assert_eq!(store.issue(Foyer, 6, &mut reads), Ok(()));
    assert_eq!(reads, [Entry::put(5, 1200), Entry::put(9, 700)]);
    for (caller, open, closed) in [(Desk, 6, 7), (Foyer, 3, 5)] {
        for slot in [open, closed] {
            refused(&store, OthersSlot, |store| store.issue(caller, slot, &mut []));
            refused(&store, OthersSlot, |store| store.forward(caller, slot, 2, &mut []));
            refused(&store, OthersSlot, |store| store.release(caller, slot));
        }
        refused(&store, SlotRange, |store| store.release(caller, 8));
    }
    let mut long: Vec<Entry> = (0..17).map(Entry::ask).collect();
    refused(&store, LongList, |store| store.issue(Foyer, 7, &mut long));
    refused(&store, LongList, |store| store.forward(Foyer, 6, 9, &mut long));
    refused(&store, SlotTaken, |store| store.issue(Foyer, 6, &mut long));
    assert_eq!(store.issue(Desk, 5, &mut long), Ok(()));
    assert_eq!(store.forward(Foyer, 6, 2, &mut reads), Ok(()));
    assert_eq!(reads, [Entry::put(5, 1100), Entry::remove(9)]);
}

#[test]
fn batches() {
    let reads = [Entry::put(5, 1001), Entry::remove(9)];
    let priced = |orders: &[Order]| {
        let mut out = [Entry::from_word(7); 3];
        price_batch(&reads, orders, &mut out).map(|count| (count, out))
    };
    let rest = Entry::from_word(7);
    assert_eq!(priced(&[]), Ok((0, [rest; 3])));
    let orders = [Order::list(9, 40), Order::raise(9, 2), Order::sixteenths(5, 12, 0), Order::cut(9, 41)];
    assert_eq!(priced(&orders), Ok((2, [Entry::put(5, 751), Entry::put(9, 1), rest])));
    assert_eq!(priced(&[Order::sixteenths(5, 12, 800)]), Ok((1, [Entry::put(5, 800), rest, rest])));
    assert_eq!(priced(&[Order::withdraw(5)]), Ok((1, [Entry::remove(5), rest, rest])));
    let refusals: [(Order, Refusal); 6] = [
        (Order::NO_ORDER, BadOrder),
        (Order::new(Order::WITHDRAW, 1, 5), BadOrder),
        (Order::list(6, 1), OfferNotRead),
        (Order::raise(9, 1), OrderNoPrice),
        (Order::sixteenths(9, 16, 1), OrderNoPrice),
        (Order::cut(5, 1002), PriceRange),
    ];
    for (order, refusal) in refusals {
        assert_eq!(priced(&[order]), Err(refusal), "{order}");
    }
    assert_eq!(price_batch(&reads, &[Order::list(5, 1)], &mut []), Err(OutputShort));
    assert_eq!(price_batch(&[reads[1], reads[0]], &[], &mut []), Err(BadList));
    assert_eq!(price_batch(&[Entry::put(1, u32::MAX)], &[Order::raise(1, 1)], &mut [rest]), Err(PriceRange));
}

/// A store that is kept elsewhere, as words, and taken up again.
#[test]
fn a_store_taken_up_again() {
    let (table, journal, head, tally) = store().into_parts();
    let (head, tally) = (Head::from_words(*head.words()), Tally::from_words(*tally.words()));
    let mut again = Store::from_parts(table, journal, head, tally);
    assert_eq!(again, store());
    let mut reads = [Entry::put(5, 1200)];
    assert_eq!(again.forward(Desk, 3, 2, &mut reads), Ok(()));
    assert_eq!(reads, [Entry::put(5, 1100)]);
}
