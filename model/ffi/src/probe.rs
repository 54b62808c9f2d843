//! Heads that no script can have, with words that do not fit their fields.

use crate::differ::{expected, Pair};
use crate::library::Library;
use crate::said::{Said, UNTOUCHED};
use crate::Lent;
use cechnuol::raw::DEPTH;
use model::rng::Rng;
use model::store::{JOURNAL_WORDS, TABLE_WORDS};
use model::unit::Call;

/// Makes a word of the head one that does not fit its field: a flag above 1, a state number of 2^32 or more, a mark of 2^16 or
/// more, or a depth above 63. A number, a mark or a depth that is cut to its field is the one that was there.
fn damage(lent: &mut Lent, rng: &mut Rng) {
    match rng.within(0, 3) {
        0 => lent.head[rng.within(4, 11)] = rng.pick(&[2, 3, 256, 1 << 32, u64::MAX]),
        1 => {
            let at = rng.pick(&[1, 2, 3, 12, 13, 14, 15, 16, 17, 18, 19]);
            lent.head[at] += rng.pick(&[1, 2, 1 << 31]) << 32;
        }
        2 => lent.head[rng.within(20, 83)] |= rng.pick(&[1, 2, 1 << 16, 1 << 47]) << 16,
        _ => {
            let depth = lent.head[DEPTH];
            let cut = depth | rng.pick(&[1 << 32, 1 << 63]);
            lent.head[DEPTH] = rng.pick(&[64, u32::MAX.into(), 1 << 32, u64::MAX, cut, cut]);
        }
    }
}

/// Any words at all for head and tally.
fn scramble(lent: &mut Lent, rng: &mut Rng) {
    lent.head.iter_mut().chain(&mut lent.tally).for_each(|word| *word = rng.bits());
}

/// Makes a call on copies with such a head: ground 1, else ground 2, and everything as it came. But clear and the loads test
/// nothing of head and tally, and do as ever whatever words are there.
pub fn probe(pair: &Pair, call: &Call, rng: &mut Rng) -> Result<(), String> {
    if matches!(call, Call::PriceBatch { .. }) {
        return Ok(());
    }
    let mut library = pair.library.clone();
    damage(&mut library.lent, rng);
    if !matches!(call, Call::Clear { .. } | Call::Load { .. }) {
        return turned_away(call, library);
    }
    if rng.percent(50) {
        scramble(&mut library.lent, rng);
    }
    as_with_any_words(pair, call, library)
}

/// A call for which the head's words do not fit: ground 1 if table or journal has a length out of its range, else
/// ground 2, and everything as it came.
fn turned_away(call: &Call, mut library: Library) -> Result<(), String> {
    let before = library.clone();
    let said = library.serve(call);
    let Lent { table, journal, head, .. } = &before.lent;
    let fits = (1..=TABLE_WORDS).contains(&table.len()) && (1..=JOURNAL_WORDS).contains(&journal.len());
    let words = match call {
        Call::Issue { list, .. } => list.clone(),
        Call::Forward { slot, with, .. } => before.filled.read_set(*slot, with.as_deref()),
        _ => Vec::new(),
    };
    let wanted = Said { code: if fits { 2 } else { 1 }, value: UNTOUCHED, since: UNTOUCHED, words };
    if said != wanted || library != before {
        return Err(format!(
            "with head {head:?} the library said {said:?}, expected {wanted:?}; all as it came: {}",
            library == before
        ));
    }
    Ok(())
}

/// Clear and the loads take any words for head and tally: an accepted call writes them anew, a refused one leaves them.
fn as_with_any_words(pair: &Pair, call: &Call, library: Library) -> Result<(), String> {
    let before = library.clone();
    let mut other = Pair { model: pair.model.clone(), library };
    let said = other.library.serve(call);
    let wanted = expected(&other.model.serve(call));
    if said != wanted {
        return Err(format!(
            "with head {:?} the library said {said:?}, the model {wanted:?}",
            before.lent.head
        ));
    }
    if said.code == 0 {
        return other.compare();
    }
    if other.library == before {
        Ok(())
    } else {
        Err(format!("with head {:?} a refused call left something else", before.lent.head))
    }
}
