//! Commands as the lines that say them.

use super::{Command, HeadField, Memory, Poke, Show, TallyField};
use crate::caller::Caller;
use crate::format::Format;
use crate::unit::Call;
use std::fmt;

/// Words as 16 hexadecimal digits, each after a space.
pub fn words_text(words: &[u64]) -> String {
    words.iter().map(|word| format!(" {word:016X}")).collect()
}

/// Bytes as 2 hexadecimal digits, each after a space.
pub fn bytes_text(bytes: &[u8]) -> String {
    bytes.iter().map(|byte| format!(" {byte:02X}")).collect()
}

impl fmt::Display for Memory {
    fn fmt(&self, f: &mut fmt::Formatter<'_>) -> fmt::Result {
        f.write_str(match self {
            Memory::Table => "table",
            Memory::Journal => "journal",
            Memory::Bytes => "bytes",
        })
    }
}

impl fmt::Display for Command {
    fn fmt(&self, f: &mut fmt::Formatter<'_>) -> fmt::Result {
        match self {
            Command::Lend { memory, length } => write!(f, "lend {memory} {length}"),
            Command::Poke { at, poke } => write_poke(f, *at, poke),
            Command::Fill { memory, at, count, word, rise } => {
                write!(f, "fill {memory} {at} {count} {word:016X} {rise:016X}")
            }
            Command::Head(field) => write!(f, "head {field}"),
            Command::Tally(field) => write!(f, "tally {field}"),
            Command::Show(what) => write!(f, "show {what}"),
            Command::LoadFile { depth, format, name } => {
                write!(f, "{} {}", load_file_word(*format), String::from_utf8_lossy(name))?;
                write_depth(f, *depth)
            }
            Command::Call(call) => write!(f, "{call}"),
        }
    }
}

fn load_file_word(format: Format) -> &'static str {
    match format {
        Format::Image => "load_file",
        Format::Sheet => "load_sheet_file",
    }
}

/// A depth of 0 need not be said, and is not.
fn write_depth(f: &mut fmt::Formatter<'_>, depth: u32) -> fmt::Result {
    match depth {
        0 => Ok(()),
        depth => write!(f, " {depth}"),
    }
}

fn write_poke(f: &mut fmt::Formatter<'_>, at: u64, poke: &Poke) -> fmt::Result {
    match poke {
        Poke::Table(words) => write!(f, "poke table {at}{}", words_text(words)),
        Poke::Journal(words) => write!(f, "poke journal {at}{}", words_text(words)),
        Poke::Bytes(bytes) => write!(f, "poke bytes {at}{}", bytes_text(bytes)),
    }
}

impl fmt::Display for HeadField {
    fn fmt(&self, f: &mut fmt::Formatter<'_>) -> fmt::Result {
        match self {
            HeadField::Used(value) => write!(f, "used {value}"),
            HeadField::Oldest(value) => write!(f, "oldest {value}"),
            HeadField::Checkpoint(value) => write!(f, "checkpoint {value}"),
            HeadField::Tip(value) => write!(f, "tip {value}"),
            HeadField::Depth(value) => write!(f, "depth {value}"),
            HeadField::Held(slot, value) => write!(f, "held {slot} {}", u8::from(*value)),
            HeadField::Issued(slot, value) => write!(f, "issued {slot} {value}"),
            HeadField::Ends(mark, value) => write!(f, "ends {mark} {value}"),
        }
    }
}

impl fmt::Display for TallyField {
    fn fmt(&self, f: &mut fmt::Formatter<'_>) -> fmt::Result {
        match self {
            TallyField::Committed(value) => write!(f, "committed {value}"),
            TallyField::RolledBack(value) => write!(f, "rolled_back {value}"),
            TallyField::Flushed(value) => write!(f, "flushed {value}"),
        }
    }
}

impl fmt::Display for Show {
    fn fmt(&self, f: &mut fmt::Formatter<'_>) -> fmt::Result {
        match self {
            Show::Head => write!(f, "head"),
            Show::Tally => write!(f, "tally"),
            Show::Memory(memory) => write!(f, "{memory}"),
            Show::All => write!(f, "all"),
            Show::Part { memory, at, count } => write!(f, "{memory} {at} {count}"),
        }
    }
}

/// The foyer is named; where no caller stands, it is the desk.
impl fmt::Display for Call {
    fn fmt(&self, f: &mut fmt::Formatter<'_>) -> fmt::Result {
        f.write_str(self.name())?;
        if self.caller() == Some(Caller::Foyer) {
            write!(f, " {}", Caller::Foyer)?;
        }
        match self {
            Call::Clear { depth } | Call::Load { depth, .. } => write_depth(f, *depth),
            Call::Write { state: None, .. } | Call::Restart => Ok(()),
            Call::Commit { list } => f.write_str(&words_text(list)),
            Call::Write { state: Some(state), .. } | Call::RollBack { state } | Call::Flush { state } => {
                write!(f, " {state}")
            }
            Call::LookUp { offer, state, .. } => write!(f, " {offer} {state}"),
            Call::Issue { slot, list, .. } => write!(f, " {slot}{}", words_text(list)),
            Call::Forward { slot, state, with: None, .. } => write!(f, " {slot} {state}"),
            Call::Forward { slot, state, with: Some(list), .. } => {
                write!(f, " {slot} {state} with{}", words_text(list))
            }
            Call::Release { slot, .. } => write!(f, " {slot}"),
            Call::PriceBatch { reads, orders, output } => {
                write!(f, "{} /{} /{}", words_text(reads), words_text(orders), words_text(output))
            }
        }
    }
}
