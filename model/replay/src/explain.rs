//! What a line prints with `--explain`: each call and its answer as a person says them.

use crate::phrases::{article, count, entry, file, freshness, order, question, with_depth, words};
use crate::shown;
use cechnuol::Refusal;
use ffi::library::Library;
use ffi::said::{Said, UNTOUCHED};
use ffi::NO_PRICE;
use model::caller::Caller;
use model::format::Format;
use model::script::{file_bytes, parse, perform, Command, Line, Poke, Quoted, Reason};
use model::unit::Call;

/// What one line prints, without what stands in front, or why it is no call.
pub fn respond(library: &mut Library, line: &[u8]) -> Result<Vec<String>, Reason> {
    match parse(line) {
        Line::Blank => Ok(Vec::new()),
        Line::NoCall(reason) => Err(reason),
        Line::Command(Command::Call(call)) => Ok(vec![served(library, &call)]),
        Line::Command(Command::LoadFile { depth, format, name }) => {
            load_file(library, depth, format, &name).map(|text| vec![text])
        }
        Line::Command(command) => {
            perform(library, &command)?;
            Ok(explained(library, &command))
        }
    }
}

/// A call, made and answered. That the foyer makes it is said first.
fn served(library: &mut Library, call: &Call) -> String {
    let by = if call.caller() == Some(Caller::Foyer) { "foyer: " } else { "" };
    let request = request(library, call);
    let said = library.serve(call);
    format!("{by}{request}: {}", answer(call, &said))
}

fn load_file(library: &mut Library, depth: u32, format: Format, name: &[u8]) -> Result<String, Reason> {
    library.bytes = file_bytes(name)?;
    let length = count(library.bytes.len() as u64, "byte");
    let call = Call::Load { depth, format };
    let said = library.serve(&call);
    let request = format!("load the {} {}{}, {length}", file(format), Quoted::new(name), with_depth(depth));
    Ok(format!("{request}: {}", answer(&call, &said)))
}

/// What is shown, or set: the latter as a script writes it, but for words.
fn explained(library: &mut Library, command: &Command) -> Vec<String> {
    match command {
        Command::Show(what) => shown::texts(library, *what),
        Command::Poke { at, poke: Poke::Table(list) } => {
            vec![format!("poke table {at}: {}", words(list, entry))]
        }
        Command::Poke { at, poke: Poke::Journal(list) } => {
            vec![format!("poke journal {at}: {}", words(list, entry))]
        }
        command => vec![command.to_string()],
    }
}

/// What a call asks of the unit.
fn request(library: &Library, call: &Call) -> String {
    match call {
        Call::Clear { depth } => format!("clear{}", with_depth(*depth)),
        Call::Load { depth, format } => {
            let length = count(library.bytes.len() as u64, "byte");
            format!("load {} of {length}{}", article(*format), with_depth(*depth))
        }
        Call::Write { format, state: None } => format!("write the {format} of the tip"),
        Call::Write { format, state: Some(state) } => format!("write the {format} of state {state}"),
        Call::Restart => "restart".to_string(),
        Call::Commit { list } => format!("commit {}", words(list, entry)),
        Call::RollBack { state } => format!("roll back to state {state}"),
        Call::Flush { state } => format!("flush to state {state}"),
        Call::LookUp { offer, state, .. } => format!("look up offer {offer} at state {state}"),
        Call::Issue { slot, list, .. } => format!("issue slot {slot} for {}", words(list, question)),
        Call::Forward { slot, state, with: None, .. } => format!("forward slot {slot} to state {state}"),
        Call::Forward { slot, state, with: Some(list), .. } => {
            format!("forward slot {slot} to state {state} with {}", words(list, entry))
        }
        Call::Release { slot, .. } => format!("release slot {slot}"),
        Call::PriceBatch { reads, orders, output } => format!(
            "price orders ({}) on ({}) into {}",
            words(orders, order),
            words(reads, entry),
            count(output.len() as u64, "word")
        ),
    }
}

/// What the library said. A refused call's words are left out: they are as they were lent.
fn answer(call: &Call, said: &Said) -> String {
    match said.code {
        0 => accepted(call, said),
        NO_PRICE => format!("none{}", since(said)),
        code => refused(Refusal::of_number(code)),
    }
}

/// A refusal by number, name and sentence.
fn refused(refusal: Refusal) -> String {
    format!("refused {} {}: {refusal}", refusal.number(), refusal.name())
}

fn accepted(call: &Call, said: &Said) -> String {
    match call {
        _ if said.value == UNTOUCHED && !matches!(call, Call::Issue { .. } | Call::Forward { .. }) => {
            format!("ok{}", since(said))
        }
        Call::LookUp { .. } => format!("price {}{}", said.value, since(said)),
        Call::Write { .. } => format!("ok, {}", count(said.value, "byte")),
        Call::Issue { .. } | Call::Forward { .. } => format!("ok: {}", words(&said.words, entry)),
        Call::PriceBatch { .. } => format!("ok: {}", words(written(said), entry)),
        _ => format!("ok {}", said.value),
    }
}

/// How fresh a price is, where the library said so.
fn since(said: &Said) -> String {
    match said.since {
        UNTOUCHED => String::new(),
        since => format!(", {}", freshness(since)),
    }
}

/// The words that a batch wrote, which its count tells.
fn written(said: &Said) -> &[u64] {
    let count = usize::try_from(said.value).unwrap_or(usize::MAX);
    &said.words[..count.min(said.words.len())]
}
