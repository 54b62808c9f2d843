//! The library and the model side by side: every command of a script on both, and what they leave compared after every
//! call.

use crate::library::Library;
use crate::said::{is_query, since_word, Said, UNTOUCHED};
use crate::NO_PRICE;
use model::script::{perform, Command};
use model::unit::{Answer, Call, Reply, Unit};

/// The library with its memory, and the model.
#[derive(Default)]
pub struct Pair {
    pub model: Unit,
    pub library: Library,
}

/// What the library must say where the model gives this reply.
pub fn expected(reply: &Reply) -> Said {
    let (code, value, since) = match reply.answer {
        Answer::Done => (0, UNTOUCHED, UNTOUCHED),
        Answer::Count(count) => (0, count as u64, UNTOUCHED),
        Answer::Price(price, since) => (0, price.into(), since_word(since)),
        Answer::NoPrice(since) => (NO_PRICE, UNTOUCHED, since_word(since)),
        Answer::Refused(ground) => (ground.number().into(), UNTOUCHED, UNTOUCHED),
    };
    Said { code, value, since, words: reply.words.clone() }
}

impl Pair {
    /// Carries out a command on both, and says what differs after a call.
    pub fn step(&mut self, command: &Command) -> Result<(), String> {
        match command {
            Command::Call(call) => self.call(call),
            // What is shown is compared after every call.
            Command::Show(_) => Ok(()),
            _ => match (perform(&mut self.library, command), perform(&mut self.model, command)) {
                (printed, wanted) if printed == wanted => Ok(()),
                (printed, wanted) => Err(format!("the library printed {printed:?}, the model {wanted:?}")),
            },
        }
    }

    /// Makes a call on both. After a query the store and its tally must be as they were, whatever the answer.
    fn call(&mut self, call: &Call) -> Result<(), String> {
        let before = is_query(call).then(|| self.library.lent.clone());
        let said = self.library.serve(call);
        let wanted = expected(&self.model.serve(call));
        if said != wanted {
            return Err(format!("the library said {said:?}, the model {wanted:?}"));
        }
        if before.is_some_and(|before| self.library.lent != before) {
            return Err(format!("the query {call:?} changed the store"));
        }
        self.compare()
    }

    /// Says what differs between the library's memory and the model's.
    pub fn compare(&self) -> Result<(), String> {
        let store = &self.model.store;
        let Library { lent, bytes, .. } = &self.library;
        compared("head", &lent.head, &store.head.words())?;
        compared("tally", &lent.tally, &store.tally.words())?;
        compared("table", &lent.table, &store.table)?;
        compared("journal", &lent.journal, &store.journal)?;
        compared("bytes", bytes, &self.model.bytes)
    }
}

fn compared<T: PartialEq + std::fmt::LowerHex>(name: &str, library: &[T], model: &[T]) -> Result<(), String> {
    if library == model {
        return Ok(());
    }
    let at = library.iter().zip(model).position(|(one, other)| one != other).unwrap_or(0);
    Err(format!("{name} at {at}: the library has {:x}, the model {:x}", library[at], model[at]))
}
