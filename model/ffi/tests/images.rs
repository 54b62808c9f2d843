//! Images and sheets of kept states: those that random scripts leave, each as the model writes it, and loaded elsewhere the
//! state's map; and those of maps and changes of many lengths.

use cechnuol::raw::{DEPTH, DESK};
use ffi::differ::Pair;
use ffi::said::{write, UNTOUCHED};
use ffi::{Lent, BY_TABLE, NO_PRICE};
use model::changes::map_words;
use model::format::{Format, FORMATS};
use model::gen::{items, Item};
use model::script::{Command, Memory};
use model::unit::Call;
use model::word::entry;
use std::collections::BTreeSet;

/// The image or the sheet of a state as the library writes it into bytes that are just enough.
fn written(lent: &Lent, format: Format, state: u32, length: usize) -> Vec<u8> {
    let (mut bytes, mut count) = (vec![0xAA; length], UNTOUCHED);
    let code = write(lent.to_read(), format, Some(state), &mut bytes, &mut count);
    assert_eq!((code, count), (0, length as u64), "{format} of state {state}");
    bytes
}

/// What a lookup answers, the price that it gives, and how fresh it says that is.
fn quoted(lent: &Lent, offer: u32, state: u32) -> (u64, u64, u64) {
    let (mut price, mut since) = (UNTOUCHED, UNTOUCHED);
    let code = lent.to_read().look_up(DESK, offer, state, &mut price, &mut since);
    (code, price, since)
}

/// What was looked at.
#[derive(Default)]
struct Counts {
    states: usize,
    large: usize,
    prices: usize,
    changed: usize,
}

/// Writes the image and the sheet of every state that a sound store keeps, and loads each into a table of as many words as it has
/// offers: every offer that a state of the store has is quoted there at the price that it has in the store, and by the table,
/// whichever step above the checkpoint gave it here. Where the table is one word shorter, the load is refused by 16. Image and
/// sheet load alike.
fn each_state_elsewhere(pair: &Pair, counts: &mut Counts) {
    let (lent, store) = (&pair.library.lent, &pair.model.store);
    let states = store.head.checkpoint..=store.head.tip;
    let offers: BTreeSet<u32> = states.clone().flat_map(|state| store.map_at(state).into_keys()).collect();
    for state in states {
        let words = map_words(&store.map_at(state));
        let count = words.len();
        let [image, sheet] = FORMATS.map(|format| {
            let bytes = written(lent, format, state, format.length(&words));
            assert!(bytes == format.write(state, &words), "{format} of state {state}");
            bytes
        });
        let [mut elsewhere, mut by_sheet] = [0, 1].map(|_| Lent::of_lengths(count.max(1), 1));
        assert_eq!(elsewhere.lend().load(5, &image), 0, "state {state}");
        assert_eq!((by_sheet.lend().load_sheet(5, &sheet), &by_sheet), (0, &elsewhere), "state {state}");
        let number = u64::from(state);
        assert_eq!(elsewhere.head[..4], [count as u64, number, number, number]);
        assert_eq!(elsewhere.head[DEPTH], 5);
        for &offer in &offers {
            let (code, price, since) = quoted(lent, offer, state);
            assert!(code == 0 || (code, price) == (NO_PRICE, UNTOUCHED), "offer {offer} at state {state}");
            let is_step = (u64::from(store.head.checkpoint) + 1..=number).contains(&since);
            assert!(is_step || since == BY_TABLE, "offer {offer} at state {state} since {since}");
            let wanted = (code, price, BY_TABLE);
            assert_eq!(quoted(&elsewhere, offer, state), wanted, "offer {offer} at state {state}");
            counts.changed += usize::from(is_step);
        }
        if count > 1 {
            assert_eq!(Lent::of_lengths(count - 1, 1).lend().load(0, &image), 16, "state {state}");
            assert_eq!(Lent::of_lengths(count - 1, 1).lend().load_sheet(0, &sheet), 16, "state {state}");
        }
        counts.states += 1;
        counts.large += usize::from(count > store.table.len());
        counts.prices += offers.len();
    }
    let at_tip = map_words(&store.map_at(store.head.tip));
    for format in FORMATS {
        let tip = written(lent, format, store.head.tip, format.length(&at_tip));
        let (mut bytes, mut count) = (vec![0xAA; tip.len() + 3], UNTOUCHED);
        assert_eq!(write(lent.to_read(), format, None, &mut bytes, &mut count), 0);
        assert_eq!((count, bytes), (tip.len() as u64, [&tip[..], &[0xAA; 3]].concat()));
    }
}

#[test]
fn every_kept_state_of_random_stores() {
    let mut counts = Counts::default();
    for seed in 0..40 {
        let mut pair = Pair::default();
        for (index, item) in items(seed, 300).0.into_iter().enumerate() {
            let Item::Command(command) = item else { continue };
            pair.step(&command).unwrap_or_else(|it| panic!("seed {seed}: {it}"));
            // Long memory takes long, and shows nothing more.
            let store = &pair.model.store;
            let fits = (1..=200).contains(&store.table.len()) && (1..=400).contains(&store.journal.len());
            if index % 50 == 0 && fits && store.is_sound() {
                each_state_elsewhere(&pair, &mut counts);
            }
        }
    }
    let Counts { states, large, prices, changed } = counts;
    assert!(
        states > 500 && large > 50 && prices > 5000 && changed > 1000,
        "{states} states, {large} large, {prices} prices, {changed} of them since a state"
    );
}

/// Lengths about powers of two, and the longest.
const OFFERS: [u32; 11] = [0, 1, 255, 256, 511, 512, 513, 1023, 1024, 1025, 8000];
const CHANGES: [u32; 9] = [1, 64, 65, 256, 511, 512, 513, 1024, 4096];

/// A store of so many offers, all even, in a table that is full, loaded by its image or its sheet, and steps of 64 words over it,
/// the last shorter. Every second change is of a new offer, and every fifth removes one.
fn stepped(format: Format, offers: u32, changes: u32) -> Pair {
    let mut pair = Pair::default();
    let words: Vec<u64> = (0..offers).map(|k| entry(2 * k, Some(k))).collect();
    pair.model.bytes = format.write(7, &words);
    pair.library.bytes = pair.model.bytes.clone();
    let entries: Vec<u64> = (0..changes).map(|k| entry(3 * k, (k % 5 != 0).then_some(k))).collect();
    let steps = entries.chunks(64).map(|list| Command::Call(Call::Commit { list: list.to_vec() }));
    let lengths = [(Memory::Table, offers.max(1)), (Memory::Journal, changes)];
    let lend = lengths.map(|(memory, length)| Command::Lend { memory, length: length.into() });
    for command in lend.into_iter().chain([Command::Call(Call::Load { depth: 0, format })]).chain(steps) {
        pair.step(&command).unwrap_or_else(|it| panic!("{offers} offers, {changes} changes: {it}"));
    }
    pair
}

/// The tip's image and sheet, and those of a state half way to it, in bytes that are just enough and one too few, and a flush, as
/// in the model.
#[test]
fn maps_and_changes_of_many_lengths() {
    for (offers, changes) in OFFERS.iter().flat_map(|&offers| CHANGES.map(|changes| (offers, changes))) {
        let format = FORMATS[changes as usize % 2];
        let mut pair = stepped(format, offers, changes);
        let tip = 7 + changes.div_ceil(64);
        assert_eq!(pair.model.store.head.tip, tip);
        for (state, format) in
            [7 + (tip - 7) / 2, tip].into_iter().flat_map(|it| FORMATS.map(|format| (it, format)))
        {
            let length = format.length(&map_words(&pair.model.store.map_at(state)));
            for length in [length - 1, length] {
                let commands = [
                    Command::Lend { memory: Memory::Bytes, length: length as u64 },
                    Command::Call(Call::Write { format, state: Some(state) }),
                ];
                commands.iter().for_each(|command| {
                    pair.step(command).unwrap_or_else(|it| panic!("{offers}, {changes}, {state}: {it}"));
                });
            }
        }
        let flush = Command::Call(Call::Flush { state: tip });
        pair.step(&flush).unwrap_or_else(|it| panic!("{offers} offers, {changes} changes: {it}"));
    }
}

/// Each call is accepted, and refused on each ground that it can meet: with a state and without one, a load of an image and of a
/// sheet, a clear, a flush and a restart.
#[test]
fn every_answer() {
    const NAMES: [&str; 7] =
        ["write_image", "write_sheet", "load", "load_sheet", "clear", "flush", "restart"];
    let mut codes = BTreeSet::new();
    for seed in 0..40 {
        let mut pair = Pair::default();
        for item in items(seed, 300).0 {
            let Item::Command(command) = item else { continue };
            if let Command::Call(call) = &command {
                if NAMES.contains(&call.name()) {
                    codes.insert((call.form(), pair.library.clone().serve(call).code));
                }
            }
            pair.step(&command).unwrap_or_else(|it| panic!("seed {seed}: {it}"));
        }
    }
    let mut wanted: BTreeSet<(&str, u64)> = [0, 1, 2, 17].map(|code| ("write_image", code)).into();
    wanted.extend([0, 1, 2, 17].map(|code| ("restart", code)));
    wanted.extend([0, 1, 2, 11, 17].map(|code| ("write_image STATE", code)));
    wanted.extend([0, 1, 2, 17].map(|code| ("write_sheet", code)));
    wanted.extend([0, 1, 2, 11, 17].map(|code| ("write_sheet STATE", code)));
    wanted.extend([0, 1, 20, 15, 16].map(|code| ("load", code)));
    wanted.extend([0, 1, 20, 15, 16].map(|code| ("load_sheet", code)));
    wanted.extend([0, 1, 20].map(|code| ("clear", code)));
    wanted.extend([0, 1, 2, 11, 20, 16].map(|code| ("flush", code)));
    assert_eq!(codes, wanted);
}
