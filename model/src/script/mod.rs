//! Scripts of calls, as docs/REPLAY.md defines them: commands, how they are read and written, and what they print.

mod file;
mod holding;
mod lines;
mod parse;
mod perform;
mod reason;
mod token;
mod write;

pub use file::file_bytes;
pub use holding::{Holding, Memories};
pub use lines::next_line;
pub use parse::{parse, Line};
pub use perform::perform;
pub use reason::{Quoted, Reason};
pub use write::words_text;

use crate::format::Format;
use crate::unit::Call;
use std::io::{self, BufRead, Write};

/// The most bytes of a line, its newline not counted.
pub const LINE_BYTES: usize = 4096;
/// The most words of a list, and the most bytes of a poke.
pub const LIST_WORDS: usize = 80;
/// The longest table that can be lent.
pub const TABLE_WORDS: u64 = 8192;
/// The longest journal that can be lent.
pub const JOURNAL_WORDS: u64 = 4608;
/// The most bytes that can be lent: more than the longest sheet has, which is one of 12,096 rows.
pub const BYTES: u64 = 147_456;

/// A lent memory.
#[derive(Clone, Copy, Debug, PartialEq, Eq)]
pub enum Memory {
    Table,
    Journal,
    Bytes,
}

/// What a poke puts: words into table or journal, or bytes.
#[derive(Clone, Debug, PartialEq, Eq)]
pub enum Poke {
    Table(Vec<u64>),
    Journal(Vec<u64>),
    Bytes(Vec<u8>),
}

/// A field of the head and its new value.
#[derive(Clone, Copy, Debug, PartialEq, Eq)]
pub enum HeadField {
    Used(u64),
    Oldest(u32),
    Checkpoint(u32),
    Tip(u32),
    Depth(u32),
    Held(usize, bool),
    Issued(usize, u32),
    Ends(usize, u64),
}

/// A count of the tally and its new value.
#[derive(Clone, Copy, Debug, PartialEq, Eq)]
pub enum TallyField {
    Committed(u64),
    RolledBack(u64),
    Flushed(u64),
}

/// What is shown.
#[derive(Clone, Copy, Debug, PartialEq, Eq)]
pub enum Show {
    Head,
    Tally,
    Memory(Memory),
    All,
    Part { memory: Memory, at: u64, count: u64 },
}

/// A line's command.
#[derive(Clone, Debug, PartialEq, Eq)]
pub enum Command {
    Lend {
        memory: Memory,
        length: u64,
    },
    Poke {
        at: u64,
        poke: Poke,
    },
    Fill {
        memory: Memory,
        at: u64,
        count: u64,
        word: u64,
        rise: u64,
    },
    Head(HeadField),
    Tally(TallyField),
    Show(Show),
    /// Lends the bytes of a file and loads them, with a depth.
    LoadFile {
        depth: u32,
        format: Format,
        name: Vec<u8>,
    },
    Call(Call),
}

/// Whether a script went well: every line that has a token was a call.
#[derive(Clone, Copy, Debug, PartialEq, Eq)]
pub enum Outcome {
    AllCalls,
    SomeNoCall,
}

/// What ended a run before its script ended.
#[derive(Debug)]
pub enum Stopped {
    /// The script could not be read on.
    Input(io::Error),
    /// What the script prints could not be written.
    Output(io::Error),
}

/// Runs a script: has each line responded to, and prints what it prints behind a title and the line's number.
pub fn run(
    input: &mut impl BufRead,
    title: &[u8],
    out: &mut impl Write,
    mut respond: impl FnMut(&[u8]) -> Result<Vec<String>, Reason>,
) -> Result<Outcome, Stopped> {
    let mut outcome = Outcome::AllCalls;
    let mut line = Vec::new();
    let mut number: u64 = 0;
    while next_line(input, &mut line).map_err(Stopped::Input)? {
        number += 1;
        let texts = respond(&line).unwrap_or_else(|reason| {
            outcome = Outcome::SomeNoCall;
            vec![format!("no call: {reason}")]
        });
        write_texts(title, number, &texts, out).map_err(Stopped::Output)?;
    }
    Ok(outcome)
}

fn write_texts(title: &[u8], number: u64, texts: &[String], out: &mut impl Write) -> io::Result<()> {
    for text in texts {
        out.write_all(title)?;
        writeln!(out, "line {number}: {text}")?;
    }
    Ok(())
}

/// What one line prints, without what stands in front, or why it is no call.
pub fn respond(holding: &mut impl Holding, line: &[u8]) -> Result<Vec<String>, Reason> {
    match parse(line) {
        Line::Blank => Ok(Vec::new()),
        Line::Command(command) => perform(holding, &command),
        Line::NoCall(reason) => Err(reason),
    }
}
