//! Why a line is no call, in the words of docs/REPLAY.md.

use super::{Memory, BYTES, LINE_BYTES, LIST_WORDS};
use std::fmt;

/// The most bytes of a token that a reason quotes.
const QUOTED_BYTES: usize = 64;

/// Why a line is no call.
#[derive(Clone, Debug, PartialEq, Eq)]
pub enum Reason {
    /// The line has more bytes than a line may have.
    LongLine,
    /// The first word is none of a script's.
    UnknownWord(Quoted),
    /// A later word is none of those that may stand there; without one the line ends before it.
    UnexpectedWord { expected: &'static str, found: Option<Quoted> },
    /// The line ends before the form does.
    TooFew { form: String },
    /// The line goes on after the form.
    TooMany { form: String },
    /// A token is no number in the range of what the form has there.
    Number { name: &'static str, most: u64, found: Quoted },
    /// A token is no word, or no byte.
    Digits { of: &'static str, digits: usize, found: Quoted },
    /// A list has more words, or bytes, than a line may have.
    LongList { of: &'static str, count: usize },
    /// What is named of a memory does not lie within it.
    PastEnd { memory: Memory, length: usize },
    /// The file to be loaded is not there.
    NoFile(Quoted),
    /// The file to be loaded is a directory.
    Directory(Quoted),
    /// The file to be loaded has more bytes than can be lent.
    LongFile(Quoted),
    /// The file to be loaded cannot be read.
    Unreadable(Quoted),
}

impl fmt::Display for Reason {
    fn fmt(&self, f: &mut fmt::Formatter<'_>) -> fmt::Result {
        match self {
            Reason::LongLine => write!(f, "the line has more than {LINE_BYTES} bytes"),
            Reason::UnknownWord(word) => write!(f, "unknown word {word}"),
            Reason::UnexpectedWord { expected, found: Some(word) } => {
                write!(f, "expected {expected}, not {word}")
            }
            Reason::UnexpectedWord { expected, found: None } => {
                write!(f, "expected {expected}, not the end of the line")
            }
            Reason::TooFew { form } => write!(f, "too few arguments: {form}"),
            Reason::TooMany { form } => write!(f, "too many arguments: {form}"),
            Reason::Number { name, most, found } => {
                write!(f, "expected {name}, a number from 0 to {most}, not {found}")
            }
            Reason::Digits { of, digits, found } => {
                write!(f, "expected a {of} of {digits} hexadecimal digits, not {found}")
            }
            Reason::LongList { of, count } => write!(f, "expected at most {LIST_WORDS} {of}, not {count}"),
            Reason::PastEnd { memory, length } => {
                write!(f, "past the end of the {memory}, whose length is {length}")
            }
            Reason::NoFile(name) => write!(f, "there is no file {name}"),
            Reason::Directory(name) => write!(f, "{name} is a directory"),
            Reason::LongFile(name) => write!(f, "the file {name} has more than {BYTES} bytes"),
            Reason::Unreadable(name) => write!(f, "the file {name} cannot be read"),
        }
    }
}

/// A token as a reason quotes it.
#[derive(Clone, Debug, PartialEq, Eq)]
pub struct Quoted(String);

impl Quoted {
    /// The token between quotes, without its end if it is long. What is no printed ASCII character, and a backslash, stands
    /// there as `\x` and two digits, so that nothing that a script holds reaches a terminal unseen.
    pub fn new(token: &[u8]) -> Quoted {
        let cut = &token[..token.len().min(QUOTED_BYTES)];
        let text: String = cut.iter().map(|&byte| shown(byte)).collect();
        Quoted(format!("'{text}'{}", if cut.len() < token.len() { ".." } else { "" }))
    }
}

fn shown(byte: u8) -> String {
    match byte {
        b'!'..=b'~' if byte != b'\\' => char::from(byte).to_string(),
        _ => format!("\\x{byte:02X}"),
    }
}

impl fmt::Display for Quoted {
    fn fmt(&self, f: &mut fmt::Formatter<'_>) -> fmt::Result {
        f.write_str(&self.0)
    }
}
