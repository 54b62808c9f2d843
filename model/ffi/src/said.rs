//! A call made on the library, and what it said.

use crate::{Lent, BY_TABLE, NO_PRICE};
use cechnuol::raw::{price_batch, StoreRef};
use model::format::Format;
use model::script::words_text;
use model::unit::{Call, Filled, Since};
use std::fmt;

/// What a word that is lent for a value holds before a call; a call that gives none leaves it.
pub const UNTOUCHED: u64 = 0x5EED_5EED_5EED_5EED;

/// What the library answered, and the words that it was lent, as it left them: that of a price or a count, that in which a
/// lookup says how fresh the price is, and those of a list.
#[derive(Clone, Debug, PartialEq, Eq)]
pub struct Said {
    pub code: u64,
    pub value: u64,
    pub since: u64,
    pub words: Vec<u64>,
}

/// The word by which a lookup says how fresh a price is.
pub fn since_word(since: Since) -> u64 {
    match since {
        Since::State(state) => state.into(),
        Since::Table => BY_TABLE,
    }
}

/// The words of docs/REPLAY.md for whatever was said. A code that is no ground, or a number that is no state's, stands there as
/// the number that it is, and a value or such a number stands there wherever one was given, so that no answer that the papers
/// do not know passes for one that they do.
impl fmt::Display for Said {
    fn fmt(&self, f: &mut fmt::Formatter<'_>) -> fmt::Result {
        match self.code {
            0 => f.write_str("ok")?,
            NO_PRICE => f.write_str("none")?,
            code => write!(f, "refused {code}")?,
        }
        if self.value != UNTOUCHED {
            write!(f, " {}", self.value)?;
        }
        match self.since {
            UNTOUCHED => {}
            BY_TABLE => f.write_str(" table")?,
            since => write!(f, " since {since}")?,
        }
        f.write_str(&words_text(&self.words))
    }
}

/// Whether the call is a query: it takes the store to read only, and no tally.
pub fn is_query(call: &Call) -> bool {
    matches!(call, Call::Write { .. } | Call::LookUp { .. })
}

/// Loads an image or a sheet with a depth.
pub fn load(lent: &mut Lent, depth: u32, format: Format, bytes: &[u8]) -> u64 {
    match format {
        Format::Image => lent.lend().load(depth, bytes),
        Format::Sheet => lent.lend().load_sheet(depth, bytes),
    }
}

/// Writes the image or the sheet of a state, or of the tip if none is named.
pub fn write(store: StoreRef, format: Format, state: Option<u32>, bytes: &mut [u8], count: &mut u64) -> u64 {
    match (format, state) {
        (Format::Image, None) => store.write_image(bytes, count),
        (Format::Image, Some(state)) => store.write_state_image(state, bytes, count),
        (Format::Sheet, None) => store.write_sheet(bytes, count),
        (Format::Sheet, Some(state)) => store.write_state_sheet(state, bytes, count),
    }
}

/// Makes a call on the library, with the number of whoever calls. A forward without words of its own is given those filled for
/// its slot.
pub fn say(lent: &mut Lent, bytes: &mut [u8], caller: u32, call: &Call, filled: &Filled) -> Said {
    let (mut value, mut since) = (UNTOUCHED, UNTOUCHED);
    let mut words = Vec::new();
    let code = match call {
        Call::Clear { depth } => lent.lend().clear(*depth),
        Call::Load { depth, format } => load(lent, *depth, *format, bytes),
        Call::Write { format, state } => write(lent.to_read(), *format, *state, bytes, &mut value),
        Call::Restart => lent.lend().restart(bytes),
        Call::Commit { list } => lent.lend().commit(list),
        Call::RollBack { state } => lent.lend().roll_back(*state),
        Call::Flush { state } => lent.lend().flush(*state),
        Call::LookUp { offer, state, .. } => {
            lent.to_read().look_up(caller, *offer, *state, &mut value, &mut since)
        }
        Call::Issue { slot, list, .. } => {
            words = list.clone();
            lent.lend().issue(caller, *slot as usize, &mut words)
        }
        Call::Forward { slot, state, with, .. } => {
            words = filled.read_set(*slot, with.as_deref());
            lent.lend().forward(caller, *slot as usize, *state, &mut words)
        }
        Call::Release { slot, .. } => lent.lend().release(caller, *slot as usize),
        Call::PriceBatch { reads, orders, output } => {
            words = output.clone();
            price_batch(reads, orders, &mut words, &mut value)
        }
    };
    Said { code, value, since, words }
}
