//! What generated scripts meet.

use crate::caller::Caller;
use crate::changes::map_words;
use crate::format::Format;
use crate::head::{Head, MOST_DEPTH, STEPS};
use crate::sheet::{self, Fault, Row, SEATS};
use crate::sound::Clause;
use crate::store::{Store, TABLE_WORDS};
use crate::unit::{Answer, Call, Since, Unit};
use crate::word;
use std::collections::BTreeSet;

/// An image or a sheet that a sound store is asked for.
#[derive(Clone, Copy, Debug, PartialEq, Eq, PartialOrd, Ord)]
pub struct Asked {
    /// The call's form.
    pub form: &'static str,
    /// Whether its state is above the checkpoint.
    pub above: bool,
    /// Whether it has more offers than the table has words.
    pub large: bool,
    /// How many bytes more are lent than it has: one or more as 1, two or more too few as -2.
    pub more: i64,
    /// Whether the bytes lent would do for that of the tip.
    pub tip_fits: bool,
}

/// What a sheet may have that is loaded or written.
#[derive(Clone, Copy, Debug, PartialEq, Eq, PartialOrd, Ord)]
pub enum SheetHas {
    NoRow,
    OneRow,
    SeveralRows,
    /// A row with one seat, and one with all.
    OneSeat,
    AllSeats,
    FirstSeat,
    LastSeat,
    FirstRow,
    LastRow,
    /// The last seat of a row and the first of the next one.
    Neighbours,
    LeastPrice,
    MostPrice,
    /// More offers than the table of 8,000 words has room for.
    ManyOffers,
}

/// All of them.
pub const SHEETS_HAVE: [SheetHas; 13] = [
    SheetHas::NoRow,
    SheetHas::OneRow,
    SheetHas::SeveralRows,
    SheetHas::OneSeat,
    SheetHas::AllSeats,
    SheetHas::FirstSeat,
    SheetHas::LastSeat,
    SheetHas::FirstRow,
    SheetHas::LastRow,
    SheetHas::Neighbours,
    SheetHas::LeastPrice,
    SheetHas::MostPrice,
    SheetHas::ManyOffers,
];

impl SheetHas {
    /// Whether the sheet of a map, with these rows, has this.
    fn is_of(self, words: &[u64], rows: &[Row]) -> bool {
        let any_row = |test: &dyn Fn(usize) -> bool| rows.iter().any(|row| test(row.priced().count()));
        let any_offer = |test: &dyn Fn(u32) -> bool| words.iter().any(|&word| test(word::offer(word)));
        let any_price = |price: u32| words.iter().any(|&word| word::price(word) == price);
        let seat = |offer: u32| offer as usize % SEATS;
        match self {
            SheetHas::NoRow => rows.is_empty(),
            SheetHas::OneRow => rows.len() == 1,
            SheetHas::SeveralRows => rows.len() > 1,
            SheetHas::OneSeat => any_row(&|seats| seats == 1),
            SheetHas::AllSeats => any_row(&|seats| seats == SEATS),
            SheetHas::FirstSeat => any_offer(&|offer| seat(offer) == 0),
            SheetHas::LastSeat => any_offer(&|offer| seat(offer) == SEATS - 1),
            SheetHas::FirstRow => any_offer(&|offer| offer < SEATS as u32),
            SheetHas::LastRow => any_offer(&|offer| offer >= word::OFFERS - SEATS as u32),
            SheetHas::Neighbours => words.windows(2).any(|pair| {
                let [lower, upper] = [pair[0], pair[1]].map(word::offer);
                seat(upper) == 0 && lower + 1 == upper
            }),
            SheetHas::LeastPrice => any_price(0),
            SheetHas::MostPrice => any_price(u32::MAX),
            SheetHas::ManyOffers => words.len() > TABLE_WORDS,
        }
    }
}

/// Where the last step naming an offer stands among the steps that a lookup searches.
#[derive(Clone, Copy, Debug, PartialEq, Eq, PartialOrd, Ord)]
pub enum Place {
    /// It is the only step searched.
    Only,
    First,
    Middle,
    Last,
}

/// A lookup that is answered, whoever asks.
#[derive(Clone, Copy, Debug, PartialEq, Eq, PartialOrd, Ord)]
pub struct LookedUp {
    /// Whether the offer has a price.
    pub priced: bool,
    /// Where the last step naming the offer stands; none if the table answers.
    pub place: Option<Place>,
    /// Whether that step leaves the offer's price, or that it has none, as it was.
    pub repeats: bool,
    /// Whether the table has the offer.
    pub in_table: bool,
    /// Whether a held step below the checkpoint names the offer.
    pub below: bool,
    /// Whether a step above the state named does.
    pub above: bool,
}

impl LookedUp {
    /// What a call met, if it is a lookup that was answered. The store is as the call found it, and left it.
    pub fn of(call: &Call, answer: Answer, store: &Store) -> Option<LookedUp> {
        let Call::LookUp { offer, state, .. } = *call else { return None };
        let (priced, since) = match answer {
            Answer::Price(_, since) => (true, since),
            Answer::NoPrice(since) => (false, since),
            Answer::Done | Answer::Count(_) | Answer::Refused(_) => return None,
        };
        let Head { oldest, checkpoint, tip, .. } = store.head;
        let price = |state: u32| store.map_at(state).get(&offer).copied();
        let named = |from: u32, to: u32| (from..=to).skip(1).any(|state| store.is_named(offer, state));
        let (place, repeats) = match since {
            Since::Table => (None, false),
            Since::State(last) => {
                let place = match (last - 1 == checkpoint, last == state) {
                    (true, true) => Place::Only,
                    (true, false) => Place::First,
                    (false, true) => Place::Last,
                    (false, false) => Place::Middle,
                };
                (Some(place), price(last) == price(last - 1))
            }
        };
        Some(LookedUp {
            priced,
            place,
            repeats,
            in_table: price(checkpoint).is_some(),
            below: named(oldest, checkpoint),
            above: named(state, tip),
        })
    }
}

/// What numbers of 32 bits would make of a flush's state, tip and depth.
#[derive(Clone, Copy, Debug, PartialEq, Eq, PartialOrd, Ord)]
pub enum Numbers {
    /// They would do.
    Fit,
    /// The tip is less than the depth.
    BelowFirst,
    /// The state and the depth are together more than the last number.
    PastLast,
}

/// A flush of a sound store to a state that it keeps.
#[derive(Clone, Copy, Debug, PartialEq, Eq, PartialOrd, Ord)]
pub struct Flushed {
    /// Whether the depth is not 0.
    pub deep: bool,
    /// Whether the state is the checkpoint.
    pub still: bool,
    /// How far the state is above the tip less the depth: one or more as 1, one or more below as -1.
    pub above: i64,
    /// Whether the table has room for its map.
    pub fits: bool,
    pub numbers: Numbers,
}

impl Flushed {
    /// What a call is about to meet, if it is such a flush.
    pub fn of(call: &Call, store: &Store) -> Option<Flushed> {
        let Call::Flush { state } = *call else { return None };
        if !store.is_sound() || !store.keeps(state) {
            return None;
        }
        let Head { checkpoint, tip, depth, .. } = store.head;
        let numbers = match (tip.checked_sub(depth), state.checked_add(depth)) {
            (None, _) => Numbers::BelowFirst,
            (_, None) => Numbers::PastLast,
            _ => Numbers::Fit,
        };
        let above = i64::from(state) + i64::from(depth) - i64::from(tip);
        Some(Flushed {
            deep: depth > 0,
            still: state == checkpoint,
            above: above.clamp(-1, 1),
            fits: store.map_at(state).len() <= store.table.len(),
            numbers,
        })
    }
}

/// What some calls met.
#[derive(Clone, Debug, Default)]
pub struct Coverage {
    /// A call's form and the answer without values: `commit ok`, `look_up foyer none since`.
    pub answers: BTreeSet<String>,
    /// A call's form and the clause that refused it by ground 2.
    pub broken: BTreeSet<(&'static str, Clause)>,
    /// The images and sheets asked for, and the most offers of a state above the checkpoint among them.
    pub asked: BTreeSet<Asked>,
    pub most_offers: usize,
    /// What the sheets had that were written, and those that were lent to be loaded, with the call's word.
    pub sheets: BTreeSet<(&'static str, SheetHas)>,
    /// What was wrong first with bytes that were lent as a sheet and are none, and of the counts of rows that they say the
    /// least and the most that there are.
    pub faults: BTreeSet<Fault>,
    pub counts: BTreeSet<u32>,
    /// The lookups that were answered.
    pub lookups: BTreeSet<LookedUp>,
    /// The flushes to kept states.
    pub flushes: BTreeSet<Flushed>,
    /// The depths that stores were cleared or loaded with, or should have been: the call's word, and 64 for any above 63.
    pub depths: BTreeSet<(&'static str, u32)>,
    /// The lengths lent at calls.
    pub tables: BTreeSet<usize>,
    pub journals: BTreeSet<usize>,
    /// The lengths of lists committed, issued, forwarded and read by batches, with the call's word and the caller.
    pub lists: BTreeSet<(&'static str, Option<Caller>, usize)>,
    /// Whether 64 steps were held, and whether the tip was the largest number, at an accepted call.
    pub all_steps: bool,
    pub last_tip: bool,
}

impl Coverage {
    /// Notes what a call is about to meet: an image or a sheet that it asks for, or a flush to a kept state.
    pub fn note_before(&mut self, unit: &Unit, call: &Call) {
        self.note_asked(unit, call);
        self.flushes.extend(Flushed::of(call, &unit.store));
    }

    /// Notes the image or the sheet that a call asks for, if it is one that there is.
    fn note_asked(&mut self, unit: &Unit, call: &Call) {
        let Unit { store, bytes, .. } = unit;
        let (format, state) = match call {
            Call::Write { format, state } => (*format, state.unwrap_or(store.head.tip)),
            Call::Restart => (Format::Image, store.head.checkpoint),
            _ => return,
        };
        if !store.is_sound() || !store.keeps(state) {
            return;
        }
        let [words, at_tip] = [state, store.head.tip].map(|state| map_words(&store.map_at(state)));
        let above = state > store.head.checkpoint;
        let more = bytes.len() as i64 - format.length(&words) as i64;
        self.asked.insert(Asked {
            form: call.form(),
            above,
            large: words.len() > store.table.len(),
            more: more.clamp(-2, 1),
            tip_fits: format.length(&at_tip) <= bytes.len(),
        });
        if above {
            self.most_offers = self.most_offers.max(words.len());
        }
        if format == Format::Sheet && more >= 0 {
            self.note_sheet(call, &words);
        }
    }

    fn note_sheet(&mut self, call: &Call, words: &[u64]) {
        let rows = sheet::rows_of(words);
        let has = SHEETS_HAVE.iter().filter(|has| has.is_of(words, &rows));
        self.sheets.extend(has.map(|&has| (call.name(), has)));
    }

    /// Notes the bytes that are loaded as a sheet.
    fn note_load(&mut self, call: &Call, bytes: &[u8]) {
        if let Ok((_, words)) = sheet::read(bytes) {
            self.note_sheet(call, &words);
        }
        if let Err(broken) = sheet::read_rows(bytes) {
            self.faults.insert(broken.fault);
            let count = bytes.get(4..8).and_then(|count| count.try_into().ok()).map(u32::from_be_bytes);
            self.counts.extend(count.filter(|&count| count == 0 || count == u32::MAX));
        }
    }

    /// Notes a call, its answer, the clause that was broken before it, and store and bytes after it.
    pub fn note(&mut self, call: &Call, answer: Answer, broken: Option<Clause>, unit: &Unit) {
        let Unit { store, bytes, .. } = unit;
        let kind = answer.kind();
        let accepted = !matches!(answer, Answer::Refused(_));
        self.answers.insert(format!("{} {kind}", call.form()));
        if let (Some(clause), "refused 2") = (broken, kind.as_str()) {
            self.broken.insert((call.form(), clause));
        }
        self.lookups.extend(LookedUp::of(call, answer, store));
        if matches!(call, Call::Load { format: Format::Sheet, .. }) {
            self.note_load(call, bytes);
        }
        if let Call::Clear { depth } | Call::Load { depth, .. } = call {
            self.depths.insert((call.name(), (*depth).min(MOST_DEPTH + 1)));
        }
        self.tables.insert(store.table.len());
        self.journals.insert(store.journal.len());
        let list = match call {
            Call::Commit { list } | Call::Issue { list, .. } => Some(list),
            Call::Forward { with, .. } => with.as_ref(),
            Call::PriceBatch { reads, .. } => Some(reads),
            _ => None,
        };
        self.lists.extend(list.map(|list| (call.name(), call.caller(), list.len())));
        let head = &store.head;
        self.all_steps |= accepted && head.tip.checked_sub(head.oldest) == Some(STEPS as u32);
        self.last_tip |= accepted && head.tip == u32::MAX;
    }

    /// Adds what other calls met.
    pub fn add(&mut self, other: Coverage) {
        self.answers.extend(other.answers);
        self.broken.extend(other.broken);
        self.asked.extend(other.asked);
        self.most_offers = self.most_offers.max(other.most_offers);
        self.sheets.extend(other.sheets);
        self.faults.extend(other.faults);
        self.counts.extend(other.counts);
        self.lookups.extend(other.lookups);
        self.flushes.extend(other.flushes);
        self.depths.extend(other.depths);
        self.tables.extend(other.tables);
        self.journals.extend(other.journals);
        self.lists.extend(other.lists);
        self.all_steps |= other.all_steps;
        self.last_tip |= other.last_tip;
    }
}
