//! The calls as values, their answers, and a unit that serves them on memory it is lent.

use crate::batch;
use crate::caller::Caller;
use crate::format::Format;
use crate::ground::Ground;
use crate::head::SLOTS;
use crate::quote::Quote;
use crate::store::Store;
use std::fmt;

pub use crate::quote::Since;

/// A call, with its arguments besides the store and the lent bytes.
#[derive(Clone, Debug, PartialEq, Eq)]
pub enum Call {
    /// The depth is the one that must stay; so is that of a load.
    Clear {
        depth: u32,
    },
    /// The lent bytes are an image or a sheet.
    Load {
        depth: u32,
        format: Format,
    },
    /// Writes an image or a sheet; without a state it is the tip's.
    Write {
        format: Format,
        state: Option<u32>,
    },
    Restart,
    Commit {
        list: Vec<u64>,
    },
    RollBack {
        state: u32,
    },
    Flush {
        state: u32,
    },
    LookUp {
        caller: Caller,
        offer: u32,
        state: u32,
    },
    Issue {
        caller: Caller,
        slot: u64,
        list: Vec<u64>,
    },
    /// Without words of its own a forward takes what the slot's last accepted issue filled.
    Forward {
        caller: Caller,
        slot: u64,
        state: u32,
        with: Option<Vec<u64>>,
    },
    Release {
        caller: Caller,
        slot: u64,
    },
    PriceBatch {
        reads: Vec<u64>,
        orders: Vec<u64>,
        output: Vec<u64>,
    },
}

impl Call {
    /// The call's word in a script.
    pub fn name(&self) -> &'static str {
        match self {
            Call::Clear { .. } => "clear",
            Call::Load { format: Format::Image, .. } => "load",
            Call::Load { format: Format::Sheet, .. } => "load_sheet",
            Call::Write { format: Format::Image, .. } => "write_image",
            Call::Write { format: Format::Sheet, .. } => "write_sheet",
            Call::Restart => "restart",
            Call::Commit { .. } => "commit",
            Call::RollBack { .. } => "roll_back",
            Call::Flush { .. } => "flush",
            Call::LookUp { .. } => "look_up",
            Call::Issue { .. } => "issue",
            Call::Forward { .. } => "forward",
            Call::Release { .. } => "release",
            Call::PriceBatch { .. } => "price_batch",
        }
    }

    /// Who calls, where a call says it.
    pub fn caller(&self) -> Option<Caller> {
        match self {
            Call::LookUp { caller, .. }
            | Call::Issue { caller, .. }
            | Call::Forward { caller, .. }
            | Call::Release { caller, .. } => Some(*caller),
            _ => None,
        }
    }

    /// The call's word and what its grounds depend on: that the foyer calls, or that the state to be written is
    /// named.
    pub fn form(&self) -> &'static str {
        match self {
            Call::Write { format: Format::Image, state: Some(_) } => "write_image STATE",
            Call::Write { format: Format::Sheet, state: Some(_) } => "write_sheet STATE",
            Call::LookUp { caller: Caller::Foyer, .. } => "look_up foyer",
            Call::Issue { caller: Caller::Foyer, .. } => "issue foyer",
            Call::Forward { caller: Caller::Foyer, .. } => "forward foyer",
            Call::Release { caller: Caller::Foyer, .. } => "release foyer",
            _ => self.name(),
        }
    }
}

/// What a call answers.
#[derive(Clone, Copy, Debug, PartialEq, Eq)]
pub enum Answer {
    /// Accepted, with nothing to give.
    Done,
    /// Accepted, with a count of what was written.
    Count(usize),
    /// A price, and since when.
    Price(u32, Since),
    /// No price at that state, and since when.
    NoPrice(Since),
    /// Turned away.
    Refused(Ground),
}

impl fmt::Display for Answer {
    fn fmt(&self, f: &mut fmt::Formatter<'_>) -> fmt::Result {
        match self {
            Answer::Done => write!(f, "ok"),
            Answer::Count(count) => write!(f, "ok {count}"),
            Answer::Price(price, since) => write!(f, "ok {price} {since}"),
            Answer::NoPrice(since) => write!(f, "none {since}"),
            Answer::Refused(ground) => write!(f, "refused {}", ground.number()),
        }
    }
}

impl From<Quote> for Answer {
    fn from(Quote { price, since }: Quote) -> Answer {
        match price {
            Some(price) => Answer::Price(price, since),
            None => Answer::NoPrice(since),
        }
    }
}

impl Answer {
    /// The answer without its values: `ok`, `none since`, `refused 13`.
    pub fn kind(&self) -> String {
        match self {
            Answer::Done | Answer::Count(_) => "ok".to_string(),
            Answer::Price(_, since) => format!("ok {}", since.word()),
            Answer::NoPrice(since) => format!("none {}", since.word()),
            Answer::Refused(_) => self.to_string(),
        }
    }
}

/// An answer, and the words that the call was lent to change, as it left them.
#[derive(Clone, Debug, PartialEq, Eq)]
pub struct Reply {
    pub answer: Answer,
    pub words: Vec<u64>,
}

/// The words that each slot's last accepted issue filled: the caller's record, which a forward takes its read set from.
#[derive(Clone, Debug, Default, PartialEq, Eq)]
pub struct Filled([Vec<u64>; SLOTS]);

impl Filled {
    /// Keeps what an accepted issue filled. There is no slot above 7 to keep it for.
    pub fn keep(&mut self, slot: u64, words: &[u64]) {
        if let Some(kept) = usize::try_from(slot).ok().and_then(|slot| self.0.get_mut(slot)) {
            *kept = words.to_vec();
        }
    }

    /// The read set that a forward is lent: its own words, or else what the slot's last accepted issue filled.
    pub fn read_set(&self, slot: u64, with: Option<&[u64]>) -> Vec<u64> {
        let kept = usize::try_from(slot).ok().and_then(|slot| self.0.get(slot));
        with.or(kept.map(Vec::as_slice)).unwrap_or_default().to_vec()
    }
}

/// A store, the lent bytes, and the words that each slot's last accepted issue filled.
#[derive(Clone, Debug, PartialEq, Eq)]
pub struct Unit {
    pub store: Store,
    pub bytes: Vec<u8>,
    pub filled: Filled,
}

impl Default for Unit {
    fn default() -> Unit {
        Unit { store: Store::of_lengths(0, 0), bytes: Vec::new(), filled: Default::default() }
    }
}

impl Unit {
    /// Carries out a call.
    pub fn serve(&mut self, call: &Call) -> Reply {
        let store = &mut self.store;
        let answer = match call {
            Call::Clear { depth } => done(store.clear(*depth)),
            Call::Load { depth, format } => done(store.load(*depth, *format, &self.bytes)),
            Call::Write { format, state } => counted(store.write(*format, *state, &mut self.bytes)),
            Call::Restart => done(store.restart(&mut self.bytes)),
            Call::Commit { list } => done(store.commit(list)),
            Call::RollBack { state } => done(store.roll_back(*state)),
            Call::Flush { state } => done(store.flush(*state)),
            Call::LookUp { caller: _, offer, state } => quoted(store.look_up(*offer, *state)),
            Call::Release { caller, slot } => done(store.release(*caller, *slot)),
            Call::Issue { caller, slot, list } => return self.issue(*caller, *slot, list),
            Call::Forward { caller, slot, state, with } => {
                return self.forward(*caller, *slot, *state, with.as_deref());
            }
            Call::PriceBatch { reads, orders, output } => return price_batch(reads, orders, output),
        };
        Reply { answer, words: Vec::new() }
    }

    fn issue(&mut self, caller: Caller, slot: u64, list: &[u64]) -> Reply {
        let mut words = list.to_vec();
        let outcome = self.store.issue(caller, slot, &mut words);
        if outcome.is_ok() {
            self.filled.keep(slot, &words);
        }
        Reply { answer: done(outcome), words }
    }

    fn forward(&mut self, caller: Caller, slot: u64, state: u32, with: Option<&[u64]>) -> Reply {
        let mut words = self.filled.read_set(slot, with);
        let answer = done(self.store.forward(caller, slot, state, &mut words));
        Reply { answer, words }
    }
}

fn price_batch(reads: &[u64], orders: &[u64], output: &[u64]) -> Reply {
    let mut words = output.to_vec();
    let answer = counted(batch::price_batch(reads, orders, &mut words));
    Reply { answer, words }
}

fn done(outcome: Result<(), Ground>) -> Answer {
    outcome.map_or_else(Answer::Refused, |()| Answer::Done)
}

fn counted(outcome: Result<usize, Ground>) -> Answer {
    outcome.map_or_else(Answer::Refused, Answer::Count)
}

fn quoted(outcome: Result<Quote, Ground>) -> Answer {
    outcome.map_or_else(Answer::Refused, Answer::from)
}
