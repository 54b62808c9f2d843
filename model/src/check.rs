//! The model's check of itself: the store on raw memory against the plain list of whole maps, over the named calls of
//! document 01's third condition; the image and the sheet of every kept state, loaded elsewhere; two stores with different
//! flushes, depths and callers; and batches against orders run on whole maps.

use crate::caller::Caller;
use crate::changes::{apply, changes_of, map_of, map_words, words_of, Map};
use crate::draw::Draw;
use crate::format::{Format, FORMATS};
use crate::gen::{Flushed, LookedUp};
use crate::ground::Ground;
use crate::head::{count_on, Head, Tally};
use crate::plain::Plain;
use crate::quote::{Quote, Since};
use crate::store::Store;
use crate::unit::{Answer, Call, Reply, Unit};
use crate::{batch, word};
use std::collections::{BTreeMap, BTreeSet};
use std::fmt;

/// The number of a depth above 63, and of a flush that the depth bars.
const TOO_DEEP: u8 = Ground::TooDeep as u8;

/// What was checked.
#[derive(Clone, Debug, Default, PartialEq, Eq)]
pub struct Report {
    pub runs: u64,
    /// Calls made on a unit and on a plain list.
    pub calls: u64,
    pub accepted: u64,
    /// The refusals among them: the call's form and the ground's number, and how many. The plain list gave each of them too.
    pub refusals: BTreeMap<(&'static str, u8), u64>,
    /// The flushes to kept states among them, and how many went to a state above the checkpoint of a store with a depth.
    pub flushed: BTreeSet<Flushed>,
    pub deep_flushes: u64,
    /// The lookups among them that were answered: how many of each kind of answer, and what they met.
    pub lookups: BTreeMap<String, u64>,
    pub looked_up: BTreeSet<LookedUp>,
    /// First loads that were accepted, by image and by sheet.
    pub loads: BTreeMap<Format, u64>,
    /// Kept states whose image and sheet were loaded elsewhere, those of them that the table they come from has no room for, and
    /// the prices looked up there.
    pub states: u64,
    pub large_states: u64,
    pub quoted: u64,
    /// Prices and forwarded reads compared in two stores with different flushes.
    pub compared: u64,
    /// Those of them that the desk asked in one store and the foyer in the other.
    pub by_both: u64,
    /// Those of them that were asked of stores with different depths, and the flushes of these stores that a depth barred.
    pub depths_differ: u64,
    pub barred: u64,
    /// Lookups among them that gave one price, or none, and two numbers: since when may differ.
    pub since_differs: u64,
    /// Images and sheets written in both stores.
    pub written_in_both: BTreeMap<Format, u64>,
    pub batches: u64,
}

impl Report {
    fn note(&mut self, call: &Call, answer: Answer) {
        self.calls += 1;
        match answer {
            Answer::Refused(ground) => {
                *self.refusals.entry((call.form(), ground.number())).or_default() += 1;
                return;
            }
            Answer::Price(..) | Answer::NoPrice(_) => *self.lookups.entry(answer.kind()).or_default() += 1,
            Answer::Done | Answer::Count(_) => {}
        }
        self.accepted += 1;
    }

    fn note_flush(&mut self, flushed: Option<Flushed>, answer: Answer) {
        let deep = flushed.is_some_and(|flushed| flushed.deep && !flushed.still);
        self.deep_flushes += u64::from(deep && answer == Answer::Done);
        self.flushed.extend(flushed);
    }
}

impl fmt::Display for Report {
    fn fmt(&self, f: &mut fmt::Formatter<'_>) -> fmt::Result {
        let Report { runs, calls, accepted, states, large_states, quoted, .. } = self;
        let Report { compared, by_both, since_differs, batches, deep_flushes, depths_differ, barred, .. } =
            self;
        let refusals = self.refusals.len();
        write!(f, "runs {runs} calls {calls} accepted {accepted} refusals met {refusals} ")?;
        for ((form, _), count) in self.refusals.iter().filter(|((_, number), _)| *number == TOO_DEEP) {
            write!(f, "{form} refused {TOO_DEEP} {count} ")?;
        }
        write!(f, "flushes with a depth {deep_flushes} lookups ")?;
        for (kind, count) in &self.lookups {
            write!(f, "{kind} {count} ")?;
        }
        for (format, count) in &self.loads {
            write!(f, "loaded by {format} {count} ")?;
        }
        write!(f, "states loaded elsewhere {states} too large for their table {large_states} prices there {quoted} ")?;
        write!(
            f,
            "compared in two stores {compared} by both callers {by_both} depths differ {depths_differ} \
             flushes barred {barred} since differs {since_differs} "
        )?;
        for (format, count) in &self.written_in_both {
            write!(f, "{format}s in both {count} ")?;
        }
        write!(f, "batches {batches}")
    }
}

/// Checks so many runs of seeds from one on; gives what was checked, or the first difference.
pub fn self_check(seed: u64, runs: u64) -> Result<Report, String> {
    let mut report = Report::default();
    for seed in (0..runs).map(|run| seed.wrapping_add(run)) {
        let told = |difference: String| format!("seed {seed}: {difference}");
        against_plain(seed, &mut report).map_err(told)?;
        two_stores(seed, &mut report).map_err(told)?;
        batches(seed, &mut report).map_err(told)?;
        report.runs += 1;
    }
    Ok(report)
}

fn expect<T: PartialEq + fmt::Debug>(what: &str, unit: T, plain: T) -> Result<(), String> {
    if unit == plain {
        Ok(())
    } else {
        Err(format!("{what}: {unit:?} and not {plain:?}"))
    }
}

// The unit against the plain list.

/// A unit and the plain list beside it, and the tally counted from the accepted calls.
#[derive(Clone)]
struct Pair {
    unit: Unit,
    plain: Plain,
    tally: Tally,
}

fn against_plain(seed: u64, report: &mut Report) -> Result<(), String> {
    let mut draw = Draw::new(seed);
    let Some(mut pair) = load_both(&mut draw, report)? else {
        return Ok(());
    };
    let weights = draw.rng.pick(&[MIXED, MIXED, MIXED, MANY_COMMITS, LOOKUPS, LOOKUPS]);
    for _ in 0..draw.rng.within(20, 200) {
        let call = draw_call(&mut draw, &weights, &mut pair.unit);
        let flushed = Flushed::of(&call, &pair.unit.store);
        let reply = pair.step(&call).map_err(|difference| format!("{call:?}: {difference}"))?;
        report.note(&call, reply.answer);
        report.note_flush(flushed, reply.answer);
        report.looked_up.extend(LookedUp::of(&call, reply.answer, &pair.unit.store));
        if draw.rng.percent(10) {
            pair.compare_states()?;
        }
    }
    pair.compare_states()?;
    pair.load_states_elsewhere(&mut draw, report)
}

/// Memory of a length that holds anything.
fn used_memory(draw: &mut Draw, length: usize) -> Vec<u64> {
    let any = draw.rng.bits();
    (0..length as u64).map(|index| any.wrapping_mul(2 * index + 1)).collect()
}

/// A store whose memory, depth and tally hold anything, as there may be before a load.
fn used_store(draw: &mut Draw, table: usize, journal: usize) -> Store {
    let mut store = Store::of_lengths(table, journal);
    store.table = used_memory(draw, table);
    store.journal = used_memory(draw, journal);
    store.head.depth = draw.rng.bits() as u32;
    store.tally.flushed = draw.rng.bits();
    store
}

/// Loads a drawn image or sheet into a unit and a plain list; gives none if both refuse it alike.
fn load_both(draw: &mut Draw, report: &mut Report) -> Result<Option<Pair>, String> {
    let most = draw.rng.pick(&[1, 3, 8, 100, 8000]);
    let table = draw.rng.within(1, most);
    let most = draw.rng.pick(&[1, 10, 60, 400, 4096]);
    let journal = draw.rng.within(1, most);
    let words = draw.map(table + 1);
    let format = draw.rng.pick(&FORMATS);
    let mut bytes = format.write(draw.number(), &words);
    if draw.rng.percent(5) {
        let at = draw.rng.below(bytes.len());
        bytes[at] ^= 1 << draw.rng.below(8);
    }
    let store = used_store(draw, table, journal);
    let mut unit = Unit { store, bytes, ..Unit::default() };
    let depth = draw.depth();
    let call = Call::Load { depth, format };
    let before = unit.clone();
    let answer = unit.serve(&call).answer;
    report.note(&call, answer);
    match Plain::load(depth, format, &unit.bytes, table, journal) {
        Ok(plain) => {
            expect("load", answer, Answer::Done)?;
            *report.loads.entry(format).or_default() += 1;
            Ok(Some(Pair { unit, plain, tally: Tally::default() }))
        }
        Err(ground) => {
            expect("load", answer, Answer::Refused(ground))?;
            expect("refused load, unit", &unit, &before)?;
            Ok(None)
        }
    }
}

/// How often each call is drawn, in the order of [`draw_call`]: all of them, so many commits that the steps run out, or lookups
/// while slots that stay open hold the steps below the checkpoint.
const MIXED: [usize; 9] = [30, 0, 5, 12, 20, 12, 12, 4, 8];
const MANY_COMMITS: [usize; 9] = [2, 80, 2, 2, 10, 4, 2, 1, 3];
const LOOKUPS: [usize; 9] = [25, 5, 5, 6, 50, 6, 1, 1, 3];

/// Draws one of the named calls, most of them to be accepted.
fn draw_call(draw: &mut Draw, weights: &[usize; 9], unit: &mut Unit) -> Call {
    let head = &unit.store.head;
    let state = draw.state(head);
    let caller = draw.caller();
    match draw.rng.weighted(weights) {
        0 => Call::Commit { list: draw_list(draw, &unit.store) },
        1 => Call::Commit { list: draw.short_changes() },
        2 => Call::RollBack { state },
        3 => Call::Flush { state: draw.state_to_flush(head) },
        4 if draw.rng.percent(95) => Call::LookUp { caller, offer: draw.offer_in(&unit.store), state },
        4 => Call::LookUp { caller, offer: draw.offer() + word::OFFERS, state },
        5 => {
            let (caller, slot) = draw.slot(&head.held, false);
            Call::Issue { caller, slot, list: draw_question(draw, caller) }
        }
        6 => {
            let (caller, slot) = draw.slot(&head.held, true);
            Call::Forward { caller, slot, state, with: None }
        }
        7 => {
            let (caller, slot) = draw.slot(&head.held, true);
            Call::Release { caller, slot }
        }
        _ => {
            let format = draw.rng.pick(&FORMATS);
            let named = if draw.rng.percent(65) { Some(state) } else { None };
            unit.bytes = vec![0xEE; draw_room(draw, &unit.store, format, named)];
            Call::Write { format, state: named }
        }
    }
}

/// A list for a commit: at times with words that leave the tip as it is, or with words that are no list.
fn draw_list(draw: &mut Draw, store: &Store) -> Vec<u64> {
    match draw.rng.weighted(&[70, 25, 5]) {
        0 => draw.changes(),
        1 => draw.repeats(&store.map_at(store.head.tip)),
        _ => draw.broken_list(),
    }
}

/// A number of bytes for the image or the sheet of a state, or of the tip: as many as it needs, one less or some more, or what
/// the checkpoint's needs.
fn draw_room(draw: &mut Draw, store: &Store, format: Format, named: Option<u32>) -> usize {
    let of_state = |state: u32| format.length(&map_words(&store.map_at(state)));
    let checkpoint = of_state(store.head.checkpoint);
    let state = named.unwrap_or(store.head.tip);
    let exact = if store.keeps(state) { of_state(state) } else { checkpoint };
    draw.rng.pick(&[exact, exact, exact - 1, exact - 1, exact + 9, checkpoint])
}

/// A list for an issue; the foyer's are often near the most words that it may list.
fn draw_question(draw: &mut Draw, caller: Caller) -> Vec<u64> {
    let edges = if caller == Caller::Foyer { 15 } else { 1 };
    match draw.rng.weighted(&[1, 1, 18, edges]) {
        0 => draw.broken_list(),
        1 => vec![word::entry(draw.offer(), Some(0))],
        2 => draw.questions(),
        _ => draw.edge_questions(),
    }
}

impl Pair {
    /// Makes a call on both and compares answers, words, bytes, tally and, if it is refused, all memory.
    fn step(&mut self, call: &Call) -> Result<Reply, String> {
        let before = self.unit.clone();
        let reply = self.unit.serve(call);
        let (expected, bytes) = self.plain_step(call, &before);
        expect("answer", &reply, &expected)?;
        expect("bytes", &self.unit.bytes, &bytes)?;
        if matches!(reply.answer, Answer::Refused(_)) {
            expect("refused, unit", &self.unit, &before)?;
        } else {
            self.count(call, &before);
        }
        self.compare_numbers()?;
        Ok(reply)
    }

    /// What the plain list answers, and the bytes after the call.
    fn plain_step(&mut self, call: &Call, before: &Unit) -> (Reply, Vec<u8>) {
        let plain = &mut self.plain;
        let mut bytes = before.bytes.clone();
        let mut words = Vec::new();
        let outcome = match call {
            Call::Commit { list } => plain.commit(list).map(|()| Answer::Done),
            Call::RollBack { state } => plain.roll_back(*state).map(|()| Answer::Done),
            Call::Flush { state } => plain.flush(*state).map(|()| Answer::Done),
            Call::LookUp { caller: _, offer, state } => plain.look_up(*offer, *state).map(Answer::from),
            Call::Issue { caller, slot, list } => {
                words = list.clone();
                plain.issue(*caller, *slot, list).map(|filled| {
                    words = filled;
                    Answer::Done
                })
            }
            Call::Forward { caller, slot, state, .. } => {
                words = before.filled.read_set(*slot, None);
                plain.forward(*caller, *slot, *state).map(|shown| {
                    words = shown;
                    Answer::Done
                })
            }
            Call::Release { caller, slot } => plain.release(*caller, *slot).map(|()| Answer::Done),
            Call::Write { format, state } => plain.write(*format, *state, bytes.len()).map(|written| {
                bytes[..written.len()].copy_from_slice(&written);
                Answer::Count(written.len())
            }),
            Call::Clear { .. } | Call::Load { .. } | Call::Restart | Call::PriceBatch { .. } => {
                unreachable!("not one of the named calls")
            }
        };
        let answer = outcome.unwrap_or_else(Answer::Refused);
        (Reply { answer, words }, bytes)
    }

    /// Counts an accepted call.
    fn count(&mut self, call: &Call, before: &Unit) {
        match call {
            Call::Commit { .. } => count_on(&mut self.tally.committed, 1),
            Call::RollBack { state } => count_on(&mut self.tally.rolled_back, before.store.head.tip - state),
            Call::Flush { state } => count_on(&mut self.tally.flushed, state - before.store.head.checkpoint),
            _ => {}
        }
    }

    /// Soundness, checkpoint, tip and depth, the tally and its equation.
    fn compare_numbers(&self) -> Result<(), String> {
        let Store { head, tally, .. } = &self.unit.store;
        expect("sound", self.unit.store.is_sound(), true)?;
        expect("checkpoint", head.checkpoint, self.plain.checkpoint())?;
        expect("tip", head.tip, self.plain.tip())?;
        expect("depth", head.depth, self.plain.depth())?;
        expect("tally", *tally, self.tally)?;
        let above = u64::from(head.tip - head.checkpoint);
        expect("equation of the tally", tally.committed, tally.rolled_back + tally.flushed + above)
    }

    /// Every offer of table and journal, and the least that is in neither.
    fn offers(&self) -> BTreeSet<u32> {
        let Store { table, journal, .. } = &self.unit.store;
        let mut offers: BTreeSet<u32> = table.iter().chain(journal).map(|&word| word::offer(word)).collect();
        offers.extend((0..).find(|offer| !offers.contains(offer)));
        offers
    }

    /// The map of every state from the checkpoint to the tip, and since when each offer stands as it does there.
    fn compare_states(&self) -> Result<(), String> {
        let store = &self.unit.store;
        let offers = self.offers();
        for state in store.head.checkpoint..=store.head.tip {
            expect("map", &store.map_at(state), self.plain.map_at(state))?;
            for &offer in &offers {
                expect("since", store.since(offer, state), self.plain.since(offer, state))?;
            }
        }
        Ok(())
    }

    /// Writes the image and the sheet of every state from the checkpoint to the tip, and with none named, each into bytes that are
    /// just enough and into one less; and of the states beside them.
    fn compare_written(&self) -> Result<(), String> {
        let Head { checkpoint, tip, .. } = self.unit.store.head;
        let kept = (checkpoint..=tip).map(|state| (Some(state), state)).chain([(None, tip)]);
        let outside = [checkpoint.checked_sub(1), tip.checked_add(1)].into_iter().flatten();
        // A write leaves all but the bytes, which are lent anew.
        let mut pair = self.clone();
        for format in FORMATS {
            for (state, measured) in kept.clone() {
                let exact = format.length(&map_words(self.plain.map_at(measured)));
                pair.written(format, state, exact)?;
                pair.written(format, state, exact - 1)?;
            }
            for state in outside.clone() {
                pair.written(format, Some(state), format.fewest_bytes())?;
            }
        }
        expect("store after writing", &pair.unit.store, &self.unit.store)
    }

    /// Writes an image or a sheet into so many bytes.
    fn written(&mut self, format: Format, state: Option<u32>, room: usize) -> Result<(), String> {
        self.unit.bytes = vec![0xEE; room];
        let call = Call::Write { format, state };
        self.step(&call).map(|_| ()).map_err(|difference| format!("{call:?} into {room} bytes: {difference}"))
    }

    /// Writes the image and the sheet of every state from the checkpoint to the tip and loads each into memory that just holds
    /// it: every offer of table and steps, put or removed, then has there the price that the plain list has for that state, and
    /// the table answers. A table that is one word shorter has no room. Image and sheet load alike, into such memory and into
    /// any other.
    fn load_states_elsewhere(&self, draw: &mut Draw, report: &mut Report) -> Result<(), String> {
        let Store { head, table, .. } = &self.unit.store;
        let offers = self.offers();
        for state in head.checkpoint..=head.tip {
            let told = |difference: String| format!("state {state}: {difference}");
            let map = self.plain.map_at(state);
            let mut written = FORMATS.map(|format| vec![0xEE; format.length(&map_words(map))]);
            for (format, bytes) in FORMATS.iter().zip(&mut written) {
                let answer = self.unit.store.write(*format, Some(state), bytes);
                expect("written", answer, Ok(bytes.len())).map_err(told)?;
                let depth = draw.allowed_depth();
                let elsewhere = loaded_elsewhere(depth, *format, bytes, state, map.len()).map_err(told)?;
                for &offer in &offers {
                    let quote = Quote { price: map.get(&offer).copied(), since: Since::Table };
                    expect("quote", elsewhere.look_up(offer, state), Ok(quote)).map_err(told)?;
                }
            }
            let table_words = draw.rng.pick(&[0, map.len() / 2, map.len(), map.len() + 3]);
            let journal_words = draw.rng.within(0, 9);
            let depth = draw.depth();
            load_alike(depth, &used_store(draw, table_words, journal_words), &written).map_err(told)?;
            report.states += 1;
            report.large_states += u64::from(map.len() > table.len());
            report.quoted += 2 * offers.len() as u64;
        }
        Ok(())
    }
}

/// The store of an image or a sheet that is loaded with a depth into a table of as many words as it has offers, and of one if it
/// has none.
fn loaded_elsewhere(
    depth: u32,
    format: Format,
    bytes: &[u8],
    state: u32,
    count: usize,
) -> Result<Store, String> {
    let mut elsewhere = Store::of_lengths(count.max(1), 1);
    expect("load", elsewhere.load(depth, format, bytes), Ok(()))?;
    expect("head", &elsewhere.head, &Head::at_rest(state, count as u64, depth))?;
    let mut again = vec![0; bytes.len()];
    expect("written again", elsewhere.write(format, None, &mut again), Ok(bytes.len()))?;
    expect("bytes written again", &again[..], bytes)?;
    if count > 1 {
        let short = Store::of_lengths(count - 1, 1).load(depth, format, bytes);
        expect("load into a shorter table", short, Err(Ground::TableFull))?;
    }
    Ok(elsewhere)
}

/// Loads a state's image and its sheet with one depth, each into a copy of a store: outcome, head, tally and all memory are the
/// same.
fn load_alike(depth: u32, store: &Store, written: &[Vec<u8>; 2]) -> Result<(), String> {
    let [image, sheet] = [0, 1].map(|index| {
        let mut store = store.clone();
        let outcome = store.load(depth, FORMATS[index], &written[index]);
        (outcome, store)
    });
    expect("load of the sheet", &sheet, &image)
}

// All short runs.

/// Makes every run of so many accepted calls, out of a few on a small store that is loaded with a depth by an image or a sheet,
/// and every refused call after each of them; gives the number of calls made, or the first difference.
pub fn all_short_runs(
    depth: u32,
    format: Format,
    table: usize,
    journal: usize,
    length: usize,
) -> Result<u64, String> {
    let bytes = format.write(0, &[word::entry(0, Some(3))]);
    let plain =
        Plain::load(depth, format, &bytes, table, journal).map_err(|ground| format!("load: {ground:?}"))?;
    let mut unit = Unit { store: Store::of_lengths(table, journal), bytes, ..Unit::default() };
    expect("load", unit.serve(&Call::Load { depth, format }).answer, Answer::Done)?;
    let pair = Pair { unit, plain, tally: Tally::default() };
    runs_after(&pair, &few_calls(), length)
}

fn runs_after(pair: &Pair, calls: &[Call], length: usize) -> Result<u64, String> {
    let mut count = 0;
    for call in calls {
        let mut next = pair.clone();
        let told = |difference: String| format!("{call:?} on {:?}: {difference}", pair.unit);
        let reply = next.step(call).map_err(told)?;
        count += 1;
        if !matches!(reply.answer, Answer::Refused(_)) {
            next.compare_states().map_err(told)?;
            next.compare_written().map_err(told)?;
            if length > 1 {
                count += runs_after(&next, calls, length - 1)?;
            }
        }
    }
    Ok(count)
}

/// Calls on offers 0 and 1, states 0 to 2, and a slot of the desk's and one of the foyer's, by either of them.
fn few_calls() -> Vec<Call> {
    let puts = [word::entry(0, Some(0)), word::entry(1, Some(1))];
    let removals = [word::entry(0, None), word::entry(1, None)];
    let lists = [vec![], vec![puts[0]], vec![removals[0]], vec![puts[1]], vec![removals[0], puts[1]]];
    let mut calls: Vec<Call> = lists.map(|list| Call::Commit { list }).into();
    let slots = [(Caller::Desk, 0), (Caller::Foyer, 6), (Caller::Foyer, 0), (Caller::Desk, 6)];
    for state in 0..3 {
        calls.extend([Call::RollBack { state }, Call::Flush { state }]);
        calls.extend(slots.map(|(caller, slot)| Call::Forward { caller, slot, state, with: None }));
    }
    for (caller, slot) in slots {
        calls.push(Call::Issue { caller, slot, list: removals.to_vec() });
        calls.push(Call::Release { caller, slot });
    }
    calls
}

// Two stores whose accepted calls agree, flushes, depths and callers apart.

fn two_stores(seed: u64, report: &mut Report) -> Result<(), String> {
    let mut draw = Draw::new(!seed);
    let (state, words) = (draw.number(), draw.map(40));
    let mut units = [loaded(&mut draw, state, &words), loaded(&mut draw, state, &words)];
    for _ in 0..draw.rng.within(20, 120) {
        for unit in &mut units {
            if draw.rng.percent(20) {
                let state = draw.state_to_flush(&unit.store.head);
                let barred = Answer::Refused(Ground::TooDeep);
                report.barred += u64::from(unit.serve(&Call::Flush { state }).answer == barred);
            }
        }
        let latest = if units[0].store.head.checkpoint > units[1].store.head.checkpoint { 0 } else { 1 };
        let call = draw_call(&mut draw, &MIXED, &mut units[latest]);
        match call {
            Call::Flush { .. } => continue,
            // Two writes are the same when they are of one form and name one state, or none. The bytes that they are lent are not
            // compared; these do for any of this run.
            Call::Write { format, .. } => units[1 - latest].bytes = vec![0; format.most_bytes(200)],
            _ => {}
        }
        let other = same_call(&mut draw, &call);
        match step_both(&mut units, [&call, &other])? {
            Some(Compared::Quotes { since_differs }) => {
                report.compared += 1;
                report.by_both += u64::from(call != other);
                report.depths_differ += u64::from(units[0].store.head.depth != units[1].store.head.depth);
                report.since_differs += u64::from(since_differs);
            }
            Some(Compared::Nothing) => {
                if let Call::Write { format, .. } = call {
                    *report.written_in_both.entry(format).or_default() += 1;
                }
            }
            None => {}
        }
    }
    Ok(())
}

/// What two stores that accept a call are held to.
enum Compared {
    /// They show the same price or forwarded read. Since when a price stands may differ.
    Quotes {
        since_differs: bool,
    },
    Nothing,
}

/// The call once more, at times from the other caller: two calls are the same whoever makes them. A slot takes calls from one
/// caller only, so that both stores accept them from different ones where they are lookups.
fn same_call(draw: &mut Draw, call: &Call) -> Call {
    let mut same = call.clone();
    match &mut same {
        Call::LookUp { caller, .. } => *caller = draw.caller(),
        Call::Issue { caller, .. } | Call::Forward { caller, .. } | Call::Release { caller, .. }
            if draw.rng.percent(5) =>
        {
            *caller = caller.other();
        }
        _ => {}
    }
    same
}

/// A store that is loaded with a map, by its image or by its sheet, which load alike, and with any depth.
fn loaded(draw: &mut Draw, state: u32, words: &[u64]) -> Unit {
    let format = draw.rng.pick(&FORMATS);
    let store = Store::of_lengths(draw.rng.within(121, 200), draw.rng.within(100, 1000));
    let mut unit = Unit { store, bytes: format.write(state, words), ..Unit::default() };
    unit.serve(&Call::Load { depth: draw.allowed_depth(), format });
    unit
}

/// Makes a call on each store if both accept theirs, and compares what they show.
fn step_both(units: &mut [Unit; 2], calls: [&Call; 2]) -> Result<Option<Compared>, String> {
    let mut after = units.clone();
    let replies = [after[0].serve(calls[0]), after[1].serve(calls[1])];
    if replies.iter().any(|reply| matches!(reply.answer, Answer::Refused(_))) {
        return Ok(None);
    }
    *units = after;
    if !matches!(calls[0], Call::LookUp { .. } | Call::Forward { .. }) {
        return Ok(Some(Compared::Nothing));
    }
    expect(&format!("two stores: {calls:?}"), shown(&replies[0]), shown(&replies[1]))?;
    Ok(Some(Compared::Quotes { since_differs: replies[0] != replies[1] }))
}

/// The price, or none, and the words that a call shows.
fn shown(reply: &Reply) -> (Option<u32>, &[u64]) {
    let price = match reply.answer {
        Answer::Price(price, _) => Some(price),
        _ => None,
    };
    (price, &reply.words)
}

// Batches.

fn batches(seed: u64, report: &mut Report) -> Result<(), String> {
    let mut draw = Draw::new(seed.rotate_left(32) ^ 0x5EED);
    for _ in 0..10 {
        let map = map_of(&draw.map(100));
        let reads = draw_reads(&mut draw, &map);
        let orders = draw_orders(&mut draw, &reads);
        let on_map = batch::run_on_map(&orders, &map);
        let on_reads = batch::priced(&reads, &orders).map(|words| apply(&map, &changes_of(&words)));
        expect(&format!("batch {reads:X?} {orders:X?} on {map:?}"), on_reads, on_map)?;
        report.batches += 1;
    }
    Ok(())
}

/// A read set of a map.
fn draw_reads(draw: &mut Draw, map: &Map) -> Vec<u64> {
    let offers = draw.read_set();
    words_of(&offers.into_keys().map(|offer| (offer, map.get(&offer).copied())).collect())
}

/// Orders of known kinds on the offers of a read set.
fn draw_orders(draw: &mut Draw, reads: &[u64]) -> Vec<u64> {
    let count = draw.rng.below(8);
    (0..count)
        .map(|_| {
            let keeps = draw.rng.within(16, 31) as u8;
            let kind = draw.rng.pick(&[0, 0, 1, 2, 3, keeps, keeps, keeps, keeps]);
            let amount = if kind == 1 { 0 } else { draw.rng.below(1500) as u32 };
            batch::order(kind, amount, word::offer(draw.rng.pick(reads)))
        })
        .collect()
}
