//! Issues, forwards and releases, images, sheets and restarts, clears, loads and flushes that meet several grounds at once: every
//! pair of them, and which one is the answer.

mod common;

use common::files;
use model::caller::Caller;
use model::changes::map_words;
use model::format::Format;
use model::gen::{items, Item};
use model::script::{parse, perform, Command, Line};
use model::store::Store;
use model::unit::{Answer, Call, Unit};
use model::word;
use std::collections::BTreeSet;

/// Each call's grounds in the order in which they are tested: "18, a foyer list over 16 words, tested after 6; 19, a place that
/// isn't the caller's, tested after 3."
const READS: [(&str, &[u8]); 3] = [
    ("issue", &[1, 2, 3, 19, 4, 6, 18]),
    ("forward", &[1, 2, 3, 19, 5, 6, 18, 11]),
    ("release", &[1, 2, 3, 19, 5]),
];

/// The same for images: where no state is named the tip is written, and a restart names the checkpoint, so that 11 concerns
/// neither.
const IMAGES: [(&str, &[u8]); 3] =
    [("write_image", &[1, 2, 17]), ("write_image STATE", &[1, 2, 11, 17]), ("restart", &[1, 2, 17])];

/// The same for sheets, which are written as images are.
const SHEETS: [(&str, &[u8]); 2] = [("write_sheet", &[1, 2, 17]), ("write_sheet STATE", &[1, 2, 11, 17])];

/// The same for the calls that a depth concerns: "20, a depth above 63 or a flush so barred, tested after 11".
const DEPTHS: [(&str, &[u8]); 4] = [
    ("clear", &[1, 20]),
    ("load", &[1, 20, 15, 16]),
    ("load_sheet", &[1, 20, 15, 16]),
    ("flush", &[1, 2, 11, 20, 16]),
];

/// Grounds that no call meets together: a slot above 7 is nobody's, and neither open nor closed; a state that is not kept, and
/// bytes that are no image or sheet, have no map.
const APART: [(u8, u8); 5] = [(3, 19), (3, 4), (3, 5), (11, 16), (15, 16)];

/// Who calls, the slot, the words lent and the state named of a call that reads.
fn arguments(unit: &Unit, call: &Call) -> Option<(Caller, u64, Vec<u64>, Option<u32>)> {
    match call {
        Call::Issue { caller, slot, list } => Some((*caller, *slot, list.clone(), None)),
        Call::Forward { caller, slot, state, with } => {
            Some((*caller, *slot, unit.filled.read_set(*slot, with.as_deref()), Some(*state)))
        }
        Call::Release { caller, slot } => Some((*caller, *slot, Vec::new(), None)),
        _ => None,
    }
}

/// Whether such a call meets a ground, whatever others it meets.
fn meets(unit: &Unit, call: &Call, ground: u8) -> bool {
    let store = &unit.store;
    match ground {
        1 => !(1..=8000).contains(&store.table.len()) || !(1..=4096).contains(&store.journal.len()),
        2 => !store.is_sound(),
        _ => {
            meets_as_read(unit, call, ground)
                || meets_as_written(unit, call, ground)
                || meets_with_depth(unit, call, ground)
        }
    }
}

fn meets_with_depth(unit: &Unit, call: &Call, ground: u8) -> bool {
    match call {
        Call::Clear { depth } => ground == 20 && *depth > 63,
        Call::Load { depth, format } => {
            let offers = format.read(&unit.bytes).ok().map(|(_, words)| words.len());
            match ground {
                20 => *depth > 63,
                15 => offers.is_none(),
                16 => offers.is_some_and(|offers| offers > unit.store.table.len()),
                _ => false,
            }
        }
        Call::Flush { state } => meets_as_flushed(&unit.store, *state, ground),
        _ => false,
    }
}

fn meets_as_flushed(store: &Store, state: u32, ground: u8) -> bool {
    let head = &store.head;
    match ground {
        11 => state < head.checkpoint || state > head.tip,
        20 => state != head.checkpoint && i128::from(state) > i128::from(head.tip) - i128::from(head.depth),
        // A state has a map where nothing is wrong with the store but what no map depends on.
        16 => {
            let mut store = store.clone();
            let head = &mut store.head;
            head.depth = 0;
            let closed = head.issued.iter_mut().zip(&head.held).filter(|(_, held)| !**held);
            closed.for_each(|(issued, _)| *issued = 0);
            store.is_sound() && store.keeps(state) && store.map_at(state).len() > store.table.len()
        }
        _ => false,
    }
}

fn meets_as_written(unit: &Unit, call: &Call, ground: u8) -> bool {
    let (store, head) = (&unit.store, &unit.store.head);
    let (format, named, state) = match call {
        Call::Write { format, state } => (*format, *state, state.unwrap_or(head.tip)),
        Call::Restart => (Format::Image, None, head.checkpoint),
        _ => return false,
    };
    match ground {
        11 => named.is_some_and(|state| state < head.checkpoint || state > head.tip),
        // Where there is no such state, what is to be written has as many bytes as that of the empty map at least.
        17 => {
            let there = store.is_sound() && store.keeps(state);
            let words = if there { map_words(&store.map_at(state)) } else { Vec::new() };
            unit.bytes.len() < length_of(format, &words)
        }
        _ => false,
    }
}

/// An image has 6 bytes and 8 for each offer; a sheet 8, and 8 for each row and 4 for each offer.
fn length_of(format: Format, words: &[u64]) -> usize {
    let rows: BTreeSet<u32> = words.iter().map(|&word| word::offer(word) / 32).collect();
    match format {
        Format::Image => 6 + 8 * words.len(),
        Format::Sheet => 8 + 8 * rows.len() + 4 * words.len(),
    }
}

fn meets_as_read(unit: &Unit, call: &Call, ground: u8) -> bool {
    let head = &unit.store.head;
    let Some((caller, slot, words, state)) = arguments(unit, call) else { return false };
    let open = head.held.get(slot as usize);
    let foyer = caller == Caller::Foyer;
    match ground {
        3 => slot > 7,
        19 => slot <= 7 && (slot >= 6) != foyer,
        4 => open == Some(&true),
        5 => open == Some(&false),
        6 => !word::is_list(&words) || state.is_none() && words.iter().any(|word| word >> 63 == 1),
        18 => foyer && words.len() > 16,
        11 => state.is_some_and(|state| state < head.checkpoint || state > head.tip),
        _ => false,
    }
}

/// The pairs of grounds that calls met.
#[derive(Default)]
struct Met {
    /// By calls that met both, and by calls that met no other.
    pairs: BTreeSet<(&'static str, u8, u8)>,
    alone: BTreeSet<(&'static str, u8, u8)>,
}

impl Met {
    /// Carries out a command. The answer of a call that is looked at here is the first ground that it meets, if there is one.
    fn step(&mut self, unit: &mut Unit, command: &Command) {
        let Command::Call(call) = command else {
            // A poke may lie outside the memory; it then does nothing.
            let _ = perform(unit, command);
            return;
        };
        // A read's grounds are those of its word, whoever calls.
        let of_call = |&&(name, _): &&(&str, &[u8])| {
            name == call.form() || name == call.name() && call.caller().is_some()
        };
        let mut all = READS.iter().chain(&IMAGES).chain(&SHEETS).chain(&DEPTHS);
        let Some(&(name, order)) = all.find(of_call) else {
            unit.serve(call);
            return;
        };
        let grounds: Vec<u8> = order.iter().copied().filter(|&ground| meets(unit, call, ground)).collect();
        for (index, &first) in grounds.iter().enumerate() {
            self.pairs.extend(grounds[index + 1..].iter().map(|&second| (name, first, second)));
        }
        if let [first, second] = grounds[..] {
            self.alone.insert((name, first, second));
        }
        let said = match unit.serve(call).answer {
            Answer::Refused(ground) => Some(ground.number()),
            _ => None,
        };
        assert_eq!(said, grounds.first().copied(), "{call}, which meets {grounds:?}");
    }
}

/// Every pair of grounds that these calls can meet, in their order.
fn all_pairs(orders: &[(&'static str, &[u8])]) -> BTreeSet<(&'static str, u8, u8)> {
    let mut pairs = BTreeSet::new();
    for &(name, order) in orders {
        for (index, &first) in order.iter().enumerate() {
            let seconds = order[index + 1..].iter().filter(|&&second| !APART.contains(&(first, second)));
            pairs.extend(seconds.map(|&second| (name, first, second)));
        }
    }
    pairs
}

/// Generated scripts meet every pair, and no other.
#[test]
fn generated_scripts_meet_every_pair() {
    let mut met = Met::default();
    for seed in 0..400 {
        let mut unit = Unit::default();
        for item in items(seed, 300).0 {
            match item {
                Item::Command(command) => met.step(&mut unit, &command),
                Item::Noise(line) => {
                    if let Line::Command(command) = parse(&line) {
                        met.step(&mut unit, &command);
                    }
                }
            }
        }
    }
    let mut all = all_pairs(&[&READS[..], &IMAGES, &SHEETS, &DEPTHS].concat());
    // A memory that is lent with a length out of range is all zeros, and a store with it seldom has a map to flush.
    for pairs in [&mut all, &mut met.pairs] {
        pairs.remove(&("flush", 1, 16));
    }
    assert_eq!(met.pairs, all);
}

/// The pairs that a stored script has at such calls that meet those two grounds alone.
fn alone_in(name: &str, orders: &[(&'static str, &[u8])]) -> BTreeSet<(&'static str, u8, u8)> {
    let (_, script) = files("scripts", "script")
        .into_iter()
        .find(|(file, _)| file.ends_with(name))
        .expect("the script is stored");
    let mut met = Met::default();
    let mut unit = Unit::default();
    for line in script.split(|&byte| byte == b'\n') {
        match parse(line) {
            Line::Blank => {}
            Line::Command(command) => met.step(&mut unit, &command),
            Line::NoCall(reason) => panic!("{}: {reason}", String::from_utf8_lossy(line)),
        }
    }
    met.alone.retain(|(call, ..)| orders.iter().any(|(name, _)| name == call));
    met.alone
}

/// The script of callers has every pair of a read, the script of images every pair of an image and of a restart, the script of
/// sheets every pair of a sheet, and the script of depths every pair of a clear, a load and a flush.
#[test]
fn stored_scripts_have_every_pair() {
    assert_eq!(alone_in("callers.script", &READS), all_pairs(&READS));
    assert_eq!(alone_in("images.script", &IMAGES), all_pairs(&IMAGES));
    assert_eq!(alone_in("sheets.script", &SHEETS), all_pairs(&SHEETS));
    assert_eq!(alone_in("depth.script", &DEPTHS), all_pairs(&DEPTHS));
}
