//! Every short length and the ends of each range, empty slices among them; and any words for head and tally.

use cechnuol::raw::{price_batch, DEPTH};
use cechnuol::{HEAD_WORDS, TALLY_WORDS};
use ffi::differ::{expected, Pair};
use ffi::library::Library;
use ffi::said::{load, say, UNTOUCHED};
use ffi::Lent;
use model::caller::Caller::{Desk, Foyer};
use model::format::Format::{Image, Sheet};
use model::script::{Command, HeadField, Memory, Poke};
use model::sheet;
use model::unit::{Call, Filled, Unit};
use model::word::entry;

const TABLES: [usize; 8] = [0, 1, 2, 3, 7999, 8000, 8001, 8192];
const JOURNALS: [usize; 8] = [0, 1, 2, 3, 4095, 4096, 4097, 4608];
const WORDS: [u64; 6] = [0, 1, 2, 7, 1 << 32, u64::MAX];
const DEPTHS: [u32; 4] = [0, 1, 62, 63];

/// Offer 5 at 1200 as state 7: its image, which document 01 has, and its sheet.
const IMAGE: [u8; 14] = [0, 0, 0, 7, 0, 1, 0x80, 0, 0, 5, 0, 0, 0x04, 0xB0];
const SHEET: [u8; 20] = [0, 0, 0, 7, 0, 0, 0, 1, 0, 0, 0, 0, 0x04, 0, 0, 0, 0, 0, 0x04, 0xB0];

/// A call of each kind, with lists, read sets and outputs of a length; from both callers where they are named, and of each state
/// of an image and of a sheet.
fn calls(words: usize) -> Vec<Call> {
    let puts: Vec<u64> = (0..words as u32).map(|offer| entry(offer, Some(offer))).collect();
    let asks: Vec<u64> = (0..words as u32).map(|offer| entry(offer, None)).collect();
    vec![
        Call::Clear { depth: 64 },
        Call::Clear { depth: 0 },
        Call::Load { depth: 64, format: Image },
        Call::Load { depth: 0, format: Image },
        Call::Load { depth: 64, format: Sheet },
        Call::Load { depth: 0, format: Sheet },
        Call::Write { format: Image, state: None },
        Call::Write { format: Image, state: Some(0) },
        Call::Write { format: Image, state: Some(1) },
        Call::Write { format: Sheet, state: None },
        Call::Write { format: Sheet, state: Some(0) },
        Call::Write { format: Sheet, state: Some(1) },
        Call::Restart,
        Call::Commit { list: puts.clone() },
        Call::LookUp { caller: Desk, offer: 0, state: 1 },
        Call::LookUp { caller: Foyer, offer: 5, state: 1 },
        Call::RollBack { state: 0 },
        Call::Flush { state: 1 },
        Call::LookUp { caller: Desk, offer: 5, state: 0 },
        Call::LookUp { caller: Foyer, offer: 5, state: 0 },
        Call::Issue { caller: Desk, slot: 3, list: asks.clone() },
        Call::Issue { caller: Foyer, slot: 7, list: asks },
        Call::Forward { caller: Desk, slot: 3, state: 1, with: Some(puts.clone()) },
        Call::Forward { caller: Foyer, slot: 7, state: 1, with: Some(puts.clone()) },
        Call::Release { caller: Desk, slot: 3 },
        Call::Release { caller: Foyer, slot: 7 },
        Call::PriceBatch { reads: puts.clone(), orders: puts.clone(), output: puts },
    ]
}

/// Every length of table and journal, with every call that tests the store: ground 1 first, then ground 2 for a head of
/// 85 sevens, whose flags do not fit.
#[test]
fn every_length_of_a_store() {
    for (table, journal) in TABLES.iter().flat_map(|&table| JOURNALS.map(|journal| (table, journal))) {
        let fits = (1..=8000).contains(&table) && (1..=4096).contains(&journal);
        let before = Lent {
            table: vec![7; table],
            journal: vec![7; journal],
            head: [7; HEAD_WORDS],
            tally: [7; TALLY_WORDS],
        };
        let mut lent = before.clone();
        for call in calls(1).iter().filter(|call| tests_store(call)) {
            let number = Library::default().number_of(call);
            let said = say(&mut lent, &mut [], number, call, &Filled::default());
            let wanted = (if fits { 2 } else { 1 }, UNTOUCHED, UNTOUCHED);
            assert_eq!((said.code, said.value, said.since), wanted, "{table} {journal} {call:?}");
            assert!(lent == before, "{table} {journal} {call:?}");
        }
    }
}

fn tests_store(call: &Call) -> bool {
    !matches!(call, Call::Clear { .. } | Call::Load { .. } | Call::PriceBatch { .. })
}

/// "Clear and load don't test this": any words for head and tally are accepted, and written anew. A refusal, on ground
/// 1, of a depth or of an image or a sheet, leaves them.
#[test]
fn clear_and_load_take_any_head_and_tally() {
    for (head, tally) in WORDS.iter().flat_map(|&head| WORDS.map(|tally| (head, tally))) {
        let lend = |table: usize| Lent {
            table: vec![7; table],
            journal: vec![7; 4],
            head: [head; HEAD_WORDS],
            tally: [tally; TALLY_WORDS],
        };
        for depth in DEPTHS {
            let mut lent = lend(2);
            let mut cleared = Lent::of_lengths(2, 4);
            cleared.head[DEPTH] = depth.into();
            assert_eq!(lent.lend().clear(depth), 0);
            assert_eq!(lent, cleared);
            let mut loaded = cleared;
            loaded.table[0] = entry(5, Some(1200));
            loaded.head[..4].copy_from_slice(&[1, 7, 7, 7]);
            for (format, bytes) in [(Image, &IMAGE[..]), (Sheet, &SHEET)] {
                let mut lent = lend(2);
                assert_eq!(load(&mut lent, depth, format, bytes), 0);
                assert_eq!(lent, loaded);
            }
        }
        for (format, bytes) in [(Image, &IMAGE[..]), (Sheet, &SHEET)] {
            for (table, depth, length, code) in
                [(0, 64, 1, 1), (2, 63, 1, 15), (2, 64, 0, 20), (2, 64, 1, 20), (2, u32::MAX, 1, 20)]
            {
                let mut lent = lend(table);
                assert_eq!(load(&mut lent, depth, format, &bytes[length..]), code);
                assert_eq!(lent, lend(table));
            }
        }
        for (table, depth, code) in [(0, 0, 1), (0, 64, 1), (2, 64, 20), (2, 256, 20), (2, u32::MAX, 20)] {
            let mut lent = lend(table);
            assert_eq!(lent.lend().clear(depth), code);
            assert_eq!(lent, lend(table));
        }
    }
}

/// "The tally is not tested": a call counts on from any words that are there, and a count stops at its largest value.
#[test]
fn any_tally_is_counted_on() {
    for tally in WORDS {
        let mut lent = Lent::of_lengths(2, 4);
        assert_eq!(lent.lend().clear(0), 0);
        lent.tally = [tally; TALLY_WORDS];
        assert_eq!(lent.lend().commit(&[]), 0);
        assert_eq!(lent.tally, [tally.saturating_add(1), tally, tally]);
        assert_eq!(lent.lend().roll_back(0), 0);
        assert_eq!(lent.tally, [tally.saturating_add(1), tally.saturating_add(1), tally]);
    }
}

/// A head whose words do not fit their fields is turned away by every call that tests the store: a flag above 1, a state
/// number of 2^32 or more, a depth above 63, also one whose lowest bits are a depth.
#[test]
fn words_that_no_head_has() {
    let mut fresh = Lent::of_lengths(2, 4);
    assert_eq!(fresh.lend().clear(0), 0);
    let flags = (4..12).flat_map(|at| [2, 256, 1 << 32, u64::MAX].map(|word| (at, word)));
    let states = (1..4).chain(12..20).flat_map(|at| [1 << 32, 7 << 32, 1 << 63].map(|word| (at, word)));
    let marks = (20..84).flat_map(|at| [1 << 16, 1 << 32, 1 << 63].map(|word| (at, word)));
    let depths = [64, 255, 256, u32::MAX.into(), 1 << 32, (1 << 32) + 63, 1 << 63, u64::MAX];
    let depths = depths.map(|word| (DEPTH, word));
    for (at, word) in flags.chain(states).chain(marks).chain(depths) {
        let mut before = fresh.clone();
        before.head[at] = word;
        for call in calls(1).iter().filter(|call| tests_store(call)) {
            let mut lent = before.clone();
            let number = Library::default().number_of(call);
            let said = say(&mut lent, &mut [0; 6], number, call, &Filled::default());
            let wanted = (2, UNTOUCHED, UNTOUCHED);
            assert_eq!((said.code, said.value, said.since), wanted, "{at} {word} {call:?}");
            assert_eq!(lent, before, "{at} {word} {call:?}");
        }
    }
}

/// Tables and journals of every length, and lists, images, sheets and outputs of short and longest lengths, as in the model.
#[test]
fn every_length_of_what_a_call_is_lent() {
    for (table, journal) in TABLES.iter().flat_map(|&table| JOURNALS.map(|journal| (table, journal))) {
        let mut pair = Pair::default();
        let mut step =
            |command: Command| pair.step(&command).unwrap_or_else(|it| panic!("{command:?}: {it}"));
        step(Command::Lend { memory: Memory::Table, length: table as u64 });
        step(Command::Lend { memory: Memory::Journal, length: journal as u64 });
        step(Command::Call(Call::Clear { depth: 0 }));
        for words in [0, 1, 2, 3, 16, 17, 63, 64, 65] {
            for bytes in [0, 1, 2, 3, 5, 6, 7, 8, 9, 13, 14, 15] {
                step(Command::Lend { memory: Memory::Bytes, length: bytes });
                for call in calls(words) {
                    step(Command::Call(call));
                }
            }
        }
    }
}

/// A table of two words that is full, a step that adds two offers, one of them in another row, and one that removes all: every
/// number of bytes for the image and for the sheet of each state, of none, and for a restart, as in the model.
#[test]
fn every_length_of_the_bytes_that_are_written() {
    let mut pair = Pair::default();
    let mut step = |command: Command| pair.step(&command).unwrap_or_else(|it| panic!("{command:?}: {it}"));
    step(Command::Lend { memory: Memory::Table, length: 2 });
    step(Command::Lend { memory: Memory::Journal, length: 8 });
    let image = [0, 0, 0, 7, 0, 2, 0x80, 0, 0, 5, 0, 0, 0x04, 0xB0, 0x80, 0, 0, 9, 0, 0, 0x02, 0xBC];
    let adds = vec![entry(1, Some(0)), entry(70, Some(u32::MAX))];
    let removes = [1, 5, 9, 70].map(|offer| entry(offer, None)).to_vec();
    for length in 0..=44 {
        step(Command::Lend { memory: Memory::Bytes, length: 22 });
        step(Command::Poke { at: 0, poke: Poke::Bytes(image.to_vec()) });
        step(Command::Call(Call::Load { depth: 3, format: Image }));
        for list in [&adds, &removes] {
            step(Command::Call(Call::Commit { list: list.clone() }));
        }
        let states: Vec<Option<u32>> = (6..=10).map(Some).chain([None]).collect();
        let writes = [Image, Sheet]
            .into_iter()
            .flat_map(|format| states.iter().map(move |&state| Call::Write { format, state }));
        for call in writes.chain([Call::Restart]) {
            step(Command::Lend { memory: Memory::Bytes, length });
            step(Command::Fill { memory: Memory::Bytes, at: 0, count: length / 8, word: u64::MAX, rise: 0 });
            step(Command::Call(call));
        }
    }
}

/// Every depth that a store may have, and those just above, with steps up to 64, at the first state numbers and at the last: every
/// flush to a kept state and to those beside them, as in the model. A head is given its tip by hand; its steps are empty.
#[test]
fn every_flush_with_every_depth() {
    let steps = [0, 1, 2, 3, 61, 62, 63, 64];
    for (depth, steps) in (0..=65).flat_map(|depth| steps.map(|steps| (depth, steps))) {
        for first in [0, 5, u32::MAX - steps] {
            let mut pair = Pair::default();
            let mut step =
                |command: Command| pair.step(&command).unwrap_or_else(|it| panic!("{command:?}: {it}"));
            step(Command::Lend { memory: Memory::Table, length: 1 });
            step(Command::Lend { memory: Memory::Journal, length: 1 });
            step(Command::Lend { memory: Memory::Bytes, length: 6 });
            step(Command::Poke { at: 0, poke: Poke::Bytes(first.to_be_bytes().to_vec()) });
            for state in (first.saturating_sub(1)..=first.saturating_add(steps + 1)).rev() {
                step(Command::Call(Call::Load { depth, format: Image }));
                step(Command::Head(HeadField::Tip(first + steps)));
                step(Command::Call(Call::Flush { state }));
            }
        }
    }
}

/// Lookups of the offers of table and steps and of others, at every state that is kept and at those beside them, after each flush,
/// as in the model. A slot that is open since state 0 keeps all steps held.
#[test]
fn every_lookup_of_a_few_steps() {
    let mut pair = Pair::default();
    let mut step = |command: Command| pair.step(&command).unwrap_or_else(|it| panic!("{command:?}: {it}"));
    step(Command::Lend { memory: Memory::Table, length: 3 });
    step(Command::Lend { memory: Memory::Journal, length: 16 });
    step(Command::Call(Call::Clear { depth: 0 }));
    step(Command::Call(Call::Issue { caller: Desk, slot: 0, list: vec![entry(3, None)] }));
    let lists = [
        vec![entry(2, Some(20)), entry(4, Some(40))],
        vec![entry(3, Some(30)), entry(4, None)],
        vec![],
        vec![entry(2, Some(20)), entry(3, Some(0)), entry(5, None)],
        vec![entry(4, Some(u32::MAX))],
    ];
    for list in lists {
        step(Command::Call(Call::Commit { list }));
    }
    let offers: Vec<u32> = (0..7).chain([(1 << 31) - 1, 1 << 31, u32::MAX]).collect();
    for flushed in 0..=5 {
        step(Command::Call(Call::Flush { state: flushed }));
        for (&offer, state) in offers.iter().flat_map(|offer| (0..7).map(move |state| (offer, state))) {
            for caller in [Desk, Foyer] {
                step(Command::Call(Call::LookUp { caller, offer, state }));
            }
        }
    }
}

/// The image of document 01, the sheet of the same state, and each of their beginnings.
#[test]
fn every_beginning_of_an_image_and_of_a_sheet() {
    let images = (0..=IMAGE.len()).map(|length| (Image, &IMAGE[..length]));
    let sheets = (0..=SHEET.len()).map(|length| (Sheet, &SHEET[..length]));
    for (format, bytes) in images.chain(sheets) {
        let mut pair = Pair::default();
        let mut step =
            |command: Command| pair.step(&command).unwrap_or_else(|it| panic!("{command:?}: {it}"));
        step(Command::Lend { memory: Memory::Table, length: 1 });
        step(Command::Lend { memory: Memory::Journal, length: 1 });
        step(Command::Lend { memory: Memory::Bytes, length: bytes.len() as u64 });
        if !bytes.is_empty() {
            step(Command::Poke { at: 0, poke: Poke::Bytes(bytes.to_vec()) });
        }
        for depth in [64, 63] {
            step(Command::Call(Call::Load { depth, format }));
        }
        step(Command::Call(Call::LookUp { caller: Foyer, offer: 5, state: 7 }));
    }
}

/// Every bit of a sheet of three rows, damaged alone, and every count of rows at its ends, as in the model.
#[test]
fn every_damaged_bit_of_a_sheet() {
    let words = [5, 31, 192, 193, 2_147_483_647].map(|offer| entry(offer, Some(offer)));
    let sheet = sheet::write(7, &words);
    let mut pair = Pair::default();
    let mut step = |command: Command| pair.step(&command).unwrap_or_else(|it| panic!("{command:?}: {it}"));
    step(Command::Lend { memory: Memory::Table, length: 5 });
    step(Command::Lend { memory: Memory::Journal, length: 1 });
    step(Command::Lend { memory: Memory::Bytes, length: sheet.len() as u64 });
    let mut load = |bytes: &[u8]| {
        step(Command::Poke { at: 0, poke: Poke::Bytes(bytes.to_vec()) });
        step(Command::Call(Call::Load { depth: 0, format: Sheet }));
    };
    for bit in 0..8 * sheet.len() {
        let mut bytes = sheet.clone();
        bytes[bit / 8] ^= 1 << (bit % 8);
        load(&bytes);
        load(&sheet);
    }
    for count in (0..=5).chain((0..32).map(|power| 1 << power)).chain([u32::MAX]) {
        let mut bytes = sheet.clone();
        bytes[4..8].copy_from_slice(&count.to_be_bytes());
        load(&bytes);
    }
}

/// Read sets, orders and outputs of every short length.
#[test]
fn every_length_of_a_batch() {
    for reads in [0, 1, 2, 3, 64, 65] {
        for orders in [0, 1, 2, 3, 64, 65] {
            for output in [0, 1, 2, 3, 63, 64, 65] {
                let reads: Vec<u64> = (0..reads).map(|offer| entry(offer, None)).collect();
                let orders: Vec<u64> = (0..orders).map(|offer| 9 << 31 | offer).collect();
                let call = Call::PriceBatch {
                    reads: reads.clone(),
                    orders: orders.clone(),
                    output: vec![7; output],
                };
                let wanted = expected(&Unit::default().serve(&call));
                let (mut words, mut count) = (vec![7; output], UNTOUCHED);
                let code = price_batch(&reads, &orders, &mut words, &mut count);
                assert_eq!((code, count, words), (wanted.code, wanted.value, wanted.words), "{call:?}");
            }
        }
    }
}
