//! Reading a line.

use super::token::{
    byte, exactly, forms_word, index, list, number, number_32, number_to, word, words, Token,
};
use super::{Command, HeadField, Memory, Poke, Quoted, Reason, Show, TallyField};
use super::{BYTES, JOURNAL_WORDS, LINE_BYTES, LIST_WORDS, TABLE_WORDS};
use crate::caller::Caller;
use crate::format::Format;
use crate::head::{SLOTS, STEPS};
use crate::unit::Call;

/// What a line is.
#[derive(Clone, Debug, PartialEq, Eq)]
pub enum Line {
    /// No token: nothing to do.
    Blank,
    /// One of the forms. Whether it fits the lent memory shows when it is carried out.
    Command(Command),
    /// None of the forms.
    NoCall(Reason),
}

/// Reads a line, without its newline. A carriage return before that belongs to the line's end.
pub fn parse(line: &[u8]) -> Line {
    let line = line.strip_suffix(b"\r").unwrap_or(line);
    if line.len() > LINE_BYTES {
        return Line::NoCall(Reason::LongLine);
    }
    let said = line.split(|&byte| byte == b'#').next().unwrap_or_default();
    let tokens: Vec<Token> =
        said.split(|&byte| byte == b' ' || byte == b'\t').filter(|token| !token.is_empty()).collect();
    match tokens.split_first() {
        None => Line::Blank,
        Some((first, rest)) => command(first, rest).map_or_else(Line::NoCall, Line::Command),
    }
}

fn command(first: Token, rest: &[Token]) -> Result<Command, Reason> {
    match first {
        b"lend" => lend(rest),
        b"poke" => poke(rest),
        b"fill" => fill(rest),
        b"head" => head(rest).map(Command::Head),
        b"tally" => tally(rest).map(Command::Tally),
        b"show" => show(rest).map(Command::Show),
        b"load_file" => load_file("load_file NAME", Format::Image, rest),
        b"load_sheet_file" => load_file("load_sheet_file NAME", Format::Sheet, rest),
        _ => call(first, rest).map(Command::Call),
    }
}

fn lend(tokens: &[Token]) -> Result<Command, Reason> {
    let (memory, rest) = memory(tokens)?;
    let [length] = exactly(&format!("lend {memory} N"), rest)?;
    let most = match memory {
        Memory::Table => TABLE_WORDS,
        Memory::Journal => JOURNAL_WORDS,
        Memory::Bytes => BYTES,
    };
    Ok(Command::Lend { memory, length: number_to(most, "N", length)? })
}

fn poke(tokens: &[Token]) -> Result<Command, Reason> {
    let (memory, rest) = memory(tokens)?;
    let [at, values @ ..] = rest else { return Err(poke_ends(memory)) };
    if values.is_empty() {
        return Err(poke_ends(memory));
    }
    let at = number("I", at)?;
    let poke = match memory {
        Memory::Table => Poke::Table(words(values)?),
        Memory::Journal => Poke::Journal(words(values)?),
        Memory::Bytes => Poke::Bytes(list("bytes", values, byte)?),
    };
    Ok(Command::Poke { at, poke })
}

/// A poke without an index, or with nothing to put there.
fn poke_ends(memory: Memory) -> Reason {
    let value = if memory == Memory::Bytes { "B" } else { "W" };
    Reason::TooFew { form: format!("poke {memory} I {value}..") }
}

fn fill(tokens: &[Token]) -> Result<Command, Reason> {
    let (memory, rest) = memory(tokens)?;
    let [at, count, first, rise] = exactly(&format!("fill {memory} I N W W"), rest)?;
    let (at, count) = (number("I", at)?, number("N", count)?);
    Ok(Command::Fill { memory, at, count, word: word(first)?, rise: word(rise)? })
}

fn head(tokens: &[Token]) -> Result<HeadField, Reason> {
    const FIELDS: [&str; 8] = ["used", "oldest", "checkpoint", "tip", "depth", "held", "issued", "ends"];
    const EXPECTED: &str = "used, oldest, checkpoint, tip, depth, held, issued or ends";
    let (field, rest) = forms_word(EXPECTED, &FIELDS, tokens)?;
    let value = |form: &str| exactly(form, rest).map(|[value]| value);
    let two = |form: &str| exactly(form, rest).map(|[at, value]| (at, value));
    match field {
        "used" => number("N", value("head used N")?).map(HeadField::Used),
        "oldest" => number_32("STATE", value("head oldest STATE")?).map(HeadField::Oldest),
        "checkpoint" => number_32("STATE", value("head checkpoint STATE")?).map(HeadField::Checkpoint),
        "tip" => number_32("STATE", value("head tip STATE")?).map(HeadField::Tip),
        "depth" => number_32("DEPTH", value("head depth DEPTH")?).map(HeadField::Depth),
        "held" => {
            let (slot, flag) = two("head held K N")?;
            Ok(HeadField::Held(index(SLOTS, "K", slot)?, index(2, "N", flag)? == 1))
        }
        "issued" => {
            let (slot, state) = two("head issued K STATE")?;
            Ok(HeadField::Issued(index(SLOTS, "K", slot)?, number_32("STATE", state)?))
        }
        _ => {
            let (mark, end) = two("head ends K N")?;
            Ok(HeadField::Ends(index(STEPS, "K", mark)?, number("N", end)?))
        }
    }
}

fn tally(tokens: &[Token]) -> Result<TallyField, Reason> {
    const FIELDS: [&str; 3] = ["committed", "rolled_back", "flushed"];
    let (field, rest) = forms_word("committed, rolled_back or flushed", &FIELDS, tokens)?;
    let [count] = exactly(&format!("tally {field} N"), rest)?;
    let count = number("N", count)?;
    Ok(match field {
        "committed" => TallyField::Committed(count),
        "rolled_back" => TallyField::RolledBack(count),
        _ => TallyField::Flushed(count),
    })
}

fn show(tokens: &[Token]) -> Result<Show, Reason> {
    const WHAT: [&str; 6] = ["head", "tally", "table", "journal", "bytes", "all"];
    let (what, rest) = forms_word("head, tally, table, journal, bytes or all", &WHAT, tokens)?;
    let whole = match what {
        "head" => Show::Head,
        "tally" => Show::Tally,
        "all" => Show::All,
        _ => return show_memory(memory(tokens)?.0, rest),
    };
    let [] = exactly(&format!("show {what}"), rest)?;
    Ok(whole)
}

fn show_memory(memory: Memory, tokens: &[Token]) -> Result<Show, Reason> {
    if tokens.is_empty() {
        return Ok(Show::Memory(memory));
    }
    let [at, count] = exactly(&format!("show {memory} I N"), tokens)?;
    Ok(Show::Part { memory, at: number("I", at)?, count: number_to(LIST_WORDS as u64, "N", count)? })
}

/// A name is one token, so that what follows it can only be the depth.
fn load_file(form: &str, format: Format, tokens: &[Token]) -> Result<Command, Reason> {
    let [name, rest @ ..] = tokens else { return Err(Reason::TooFew { form: form.to_string() }) };
    Ok(Command::LoadFile { depth: depth(form, rest)?, format, name: name.to_vec() })
}

/// The depth that a form may end with. Where none stands, it is 0.
fn depth(form: &str, tokens: &[Token]) -> Result<u32, Reason> {
    if tokens.is_empty() {
        return Ok(0);
    }
    let [depth] = exactly(&format!("{form} DEPTH"), tokens)?;
    number_32("DEPTH", depth)
}

fn call(first: Token, rest: &[Token]) -> Result<Call, Reason> {
    match first {
        b"clear" => Ok(Call::Clear { depth: depth("clear", rest)? }),
        b"load" => Ok(Call::Load { depth: depth("load", rest)?, format: Format::Image }),
        b"load_sheet" => Ok(Call::Load { depth: depth("load_sheet", rest)?, format: Format::Sheet }),
        b"write_image" => write(Format::Image, rest),
        b"write_sheet" => write(Format::Sheet, rest),
        b"restart" => exactly("restart", rest).map(|[]| Call::Restart),
        b"commit" => Ok(Call::Commit { list: words(rest)? }),
        b"roll_back" => {
            let [state] = exactly("roll_back STATE", rest)?;
            Ok(Call::RollBack { state: number_32("STATE", state)? })
        }
        b"flush" => {
            let [state] = exactly("flush STATE", rest)?;
            Ok(Call::Flush { state: number_32("STATE", state)? })
        }
        b"price_batch" => price_batch(rest),
        b"look_up" => look_up(rest),
        b"issue" => issue(rest),
        b"forward" => forward(rest),
        b"release" => release(rest),
        _ => Err(Reason::UnknownWord(Quoted::new(first))),
    }
}

/// The state need not be named.
fn write(format: Format, tokens: &[Token]) -> Result<Call, Reason> {
    if tokens.is_empty() {
        return Ok(Call::Write { format, state: None });
    }
    let [state] = exactly(&format!("write_{format} STATE"), tokens)?;
    Ok(Call::Write { format, state: Some(number_32("STATE", state)?) })
}

/// Who calls, with what a form has there, and what follows. Where neither word stands, it is the desk.
fn caller<'a, 'b>(tokens: &'a [Token<'b>]) -> (Caller, &'static str, &'a [Token<'b>]) {
    match tokens {
        [b"desk", rest @ ..] => (Caller::Desk, " desk", rest),
        [b"foyer", rest @ ..] => (Caller::Foyer, " foyer", rest),
        rest => (Caller::Desk, "", rest),
    }
}

fn look_up(tokens: &[Token]) -> Result<Call, Reason> {
    let (caller, said, rest) = caller(tokens);
    let [offer, state] = exactly(&format!("look_up{said} OFFER STATE"), rest)?;
    Ok(Call::LookUp { caller, offer: number_32("OFFER", offer)?, state: number_32("STATE", state)? })
}

fn issue(tokens: &[Token]) -> Result<Call, Reason> {
    let (caller, said, rest) = caller(tokens);
    let [slot, list @ ..] = rest else {
        return Err(Reason::TooFew { form: format!("issue{said} SLOT W..") });
    };
    Ok(Call::Issue { caller, slot: number("SLOT", slot)?, list: words(list)? })
}

fn release(tokens: &[Token]) -> Result<Call, Reason> {
    let (caller, said, rest) = caller(tokens);
    let [slot] = exactly(&format!("release{said} SLOT"), rest)?;
    Ok(Call::Release { caller, slot: number("SLOT", slot)? })
}

fn forward(tokens: &[Token]) -> Result<Call, Reason> {
    let (caller, said, rest) = caller(tokens);
    let [slot, state, with @ ..] = rest else {
        return Err(Reason::TooFew { form: format!("forward{said} SLOT STATE") });
    };
    let list = match with {
        [] => None,
        with => Some(forms_word("with", &["with"], with)?.1),
    };
    let (slot, state) = (number("SLOT", slot)?, number_32("STATE", state)?);
    Ok(Call::Forward { caller, slot, state, with: list.map(words).transpose()? })
}

fn price_batch(tokens: &[Token]) -> Result<Call, Reason> {
    let parts: Vec<&[Token]> = tokens.split(|&token| token == b"/").collect();
    let [reads, orders, output] = exactly("price_batch W.. / W.. / W..", &parts)?;
    Ok(Call::PriceBatch { reads: words(reads)?, orders: words(orders)?, output: words(output)? })
}

/// The memory that a form names first, and what follows.
fn memory<'a, 'b>(tokens: &'a [Token<'b>]) -> Result<(Memory, &'a [Token<'b>]), Reason> {
    let (name, rest) = forms_word("table, journal or bytes", &["table", "journal", "bytes"], tokens)?;
    let memory = match name {
        "table" => Memory::Table,
        "journal" => Memory::Journal,
        _ => Memory::Bytes,
    };
    Ok((memory, rest))
}
