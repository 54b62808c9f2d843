//! The baseline against the static library: random calls on the same memory, damaged memory and heads among them, with answers
//! and all memory compared after each.

use bench::baseline::{price_batch, Caller, Head, LentWords, Memory, Refusal, Tally, DEPTH};
use bench::subject::{quote_code, Subject};
use ffi::differ::Pair;
use ffi::said::{Said, UNTOUCHED};
use ffi::{Lent, FOYERS};
use model::format::Format::{Image, Sheet};
use model::gen::{items, Item};
use model::rng::Rng;
use model::script::Command;
use model::unit::{Call, Filled};

const SCRIPTS: u64 = 60;
const CALLS: usize = 500;

fn memory_of(lent: &Lent) -> Memory {
    Memory {
        table: lent.table.clone(),
        journal: lent.journal.clone(),
        head: Head::of_words(&lent.head),
        tally: Tally { committed: lent.tally[0], rolled_back: lent.tally[1], flushed: lent.tally[2] },
    }
}

/// The code and the value of an answer, as the C interface gives them.
fn coded<T>(answer: Result<T, Refusal>, value: impl FnOnce(T) -> (u64, u64)) -> (u64, u64) {
    answer.map_or_else(|ground| (ground.number(), UNTOUCHED), value)
}

fn say(memory: &mut Memory, bytes: &mut [u8], caller: u32, call: &Call, filled: &Filled) -> Said {
    let mut store = memory.lend();
    let caller = Caller::of_number(caller);
    let (mut words, mut since) = (Vec::new(), UNTOUCHED);
    let done = |answer| coded(answer, |()| (0, UNTOUCHED));
    let counted = |answer| coded(answer, |count: usize| (0, count as u64));
    let (code, value) = match call {
        Call::Clear { depth } => done(store.clear(*depth)),
        Call::Load { format: Image, depth } => done(store.load(*depth, bytes)),
        Call::Load { format: Sheet, depth } => done(store.load_sheet(*depth, bytes)),
        Call::Write { format: Image, state: None } => counted(store.write_image(bytes)),
        Call::Write { format: Image, state: Some(state) } => counted(store.write_state_image(*state, bytes)),
        Call::Write { format: Sheet, state: None } => counted(store.write_sheet(bytes)),
        Call::Write { format: Sheet, state: Some(state) } => counted(store.write_state_sheet(*state, bytes)),
        Call::Restart => done(store.restart(bytes)),
        Call::Commit { list } => done(store.commit(list)),
        Call::RollBack { state } => done(store.roll_back(*state)),
        Call::Flush { state } => done(store.flush(*state)),
        Call::LookUp { offer, state, .. } => {
            let mut price = UNTOUCHED;
            (quote_code(store.look_up(*offer, *state), &mut price, &mut since), price)
        }
        Call::Issue { slot, list, .. } => {
            words = list.clone();
            done(store.issue(caller, *slot as usize, &mut words))
        }
        Call::Forward { slot, state, with, .. } => {
            words = filled.read_set(*slot, with.as_deref());
            done(store.forward(caller, *slot as usize, *state, &mut words))
        }
        Call::Release { slot, .. } => done(store.release(caller, *slot as usize)),
        Call::PriceBatch { reads, orders, output } => {
            words = output.clone();
            counted(price_batch(reads, orders, &mut words))
        }
    };
    Said { code, value, since, words }
}

/// Another depth for a call that takes one, 64 and more among them.
fn with_depth(call: &Call, rng: &mut Rng) -> Call {
    let depth = rng.pick(&[0, 1, 2, 62, 63, 64, 256, u32::MAX]);
    match call {
        Call::Clear { .. } => Call::Clear { depth },
        Call::Load { format, .. } => Call::Load { format: *format, depth },
        call => call.clone(),
    }
}

/// Another depth for the store: small, so that it bars some flushes and not all, or at the edge of what is sound.
fn deepen(lent: &mut Lent, rng: &mut Rng) {
    lent.head[DEPTH] = rng.pick(&[0, 1, 2, 3, 4, 8, 63, 64]);
}

/// How often calls of each kind were refused as too deep.
#[derive(Default)]
struct TooDeep {
    resets: usize,
    flushes: usize,
}

impl TooDeep {
    fn count(&mut self, call: &Call, code: u64) {
        let met = usize::from(code == Refusal::TooDeep.number());
        match call {
            Call::Flush { .. } => self.flushes += met,
            _ => self.resets += met,
        }
    }

    fn check(&self) {
        assert!(self.resets > 100, "{} calls with a depth that is too deep", self.resets);
        assert!(self.flushes > 100, "{} flushes that the depth bars", self.flushes);
    }
}

#[test]
fn random_calls() {
    let mut rng = Rng::new(2);
    let (mut calls, mut damaged, mut too_deep) = (0, 0, TooDeep::default());
    for seed in 0..SCRIPTS {
        let mut pair = Pair::default();
        for item in items(seed, CALLS).0 {
            let Item::Command(command) = item else { continue };
            let Command::Call(call) = &command else {
                pair.step(&command).unwrap();
                continue;
            };
            calls += 1;
            damaged += usize::from(!pair.model.store.is_sound());
            let mut library = pair.library.clone();
            let mut memory = memory_of(&library.lent);
            assert_eq!(memory.is_sound(), pair.model.store.is_sound(), "seed {seed}: {call:?}");
            if rng.percent(50) {
                deepen(&mut library.lent, &mut rng);
                memory = memory_of(&library.lent);
            }
            assert_eq!(memory.is_sound(), memory.is_sound_without_exits(), "seed {seed}: {call:?}");
            let call = &with_depth(call, &mut rng);
            let mut bytes = library.bytes.clone();
            library.foyer = FOYERS[calls % FOYERS.len()];
            let number = library.number_of(call);
            let said = say(&mut memory, &mut bytes, number, call, &library.filled);
            let wanted = library.serve(call);
            too_deep.count(call, wanted.code);
            assert_eq!(said, wanted, "seed {seed}: {call:?}");
            assert!(memory == memory_of(&library.lent), "seed {seed}: {call:?}");
            assert!(bytes == library.bytes, "seed {seed}: {call:?}");
            pair.step(&command).unwrap();
        }
    }
    assert!(damaged > calls / 20, "{damaged} of {calls} calls on damaged memory");
    too_deep.check();
}

/// The baseline on lent words is given the words of the library, and must leave the same.
fn words_of(lent: &Lent) -> LentWords {
    let Lent { table, journal, head, tally } = lent.clone();
    LentWords { table, journal, head, tally }
}

/// A call of something that is measured: its code, and the words that it was lent, which for a lookup are those of the price and
/// of how fresh it is. A batch has no store.
fn code_of<S: Subject>(
    store: &mut S,
    bytes: &mut [u8],
    caller: u32,
    call: &Call,
    filled: &Filled,
) -> Option<(u64, Vec<u64>)> {
    let mut words = match call {
        Call::Commit { list } | Call::Issue { list, .. } => list.clone(),
        Call::Forward { slot, with, .. } => filled.read_set(*slot, with.as_deref()),
        Call::LookUp { .. } => vec![UNTOUCHED; 2],
        _ => Vec::new(),
    };
    let code = match call {
        Call::Clear { depth } => store.clear(*depth),
        Call::Load { format: Image, depth } => store.load(*depth, bytes),
        Call::Load { format: Sheet, depth } => store.load_sheet(*depth, bytes),
        Call::Write { format: Image, state: None } => store.write_image(bytes),
        Call::Write { format: Image, state: Some(state) } => store.write_state_image(*state, bytes),
        Call::Write { format: Sheet, state: None } => store.write_sheet(bytes),
        Call::Write { format: Sheet, state: Some(state) } => store.write_state_sheet(*state, bytes),
        Call::Restart => store.restart(bytes),
        Call::Commit { .. } => store.commit(&words),
        Call::RollBack { state } => store.roll_back(*state),
        Call::Flush { state } => store.flush(*state),
        Call::LookUp { offer, state, .. } => {
            let (price, since) = words.split_at_mut(1);
            store.look_up(caller, *offer, *state, &mut price[0], &mut since[0])
        }
        Call::Issue { slot, .. } => store.issue(caller, *slot as usize, &mut words),
        Call::Forward { slot, state, .. } => store.forward(caller, *slot as usize, *state, &mut words),
        Call::Release { slot, .. } => store.release(caller, *slot as usize),
        Call::PriceBatch { .. } => return None,
    };
    Some((code, words))
}

/// Makes a word of the head any other, which seldom fits its field.
fn spoil(lent: &mut Lent, rng: &mut Rng) {
    let at = rng.below(lent.head.len());
    lent.head[at] = rng.pick(&[rng.clone().bits(), 2, 1 << 32, u64::MAX]);
}

#[test]
fn random_calls_on_lent_words() {
    let mut rng = Rng::new(1);
    let (mut spoilt, mut too_deep) = (0, TooDeep::default());
    for seed in 0..SCRIPTS {
        let mut pair = Pair::default();
        for item in items(seed, CALLS).0 {
            let Item::Command(command) = item else { continue };
            if let Command::Call(call) = &command {
                let mut library = pair.library.clone();
                library.foyer = rng.pick(&FOYERS);
                let call = &with_depth(call, &mut rng);
                let number = library.number_of(call);
                let (mut lent, mut bytes) = (library.lent, library.bytes);
                if rng.percent(50) {
                    deepen(&mut lent, &mut rng);
                }
                if rng.percent(20) {
                    spoil(&mut lent, &mut rng);
                    spoilt += 1;
                }
                let (mut words, mut others) = (words_of(&lent), bytes.clone());
                let said = code_of(&mut words, &mut others, number, call, &library.filled);
                let wanted = code_of(&mut lent, &mut bytes, number, call, &library.filled);
                wanted.iter().for_each(|(code, _)| too_deep.count(call, *code));
                assert_eq!(said, wanted, "seed {seed}: {call:?}");
                assert!(words == words_of(&lent) && others == bytes, "seed {seed}: {call:?}");
            }
            pair.step(&command).unwrap();
        }
    }
    assert!(spoilt > 1000);
    too_deep.check();
}
