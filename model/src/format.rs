//! The two forms in which the prices of a state travel as bytes: an image, or a sheet by row.

use crate::ground::Ground;
use crate::{image, sheet};
use std::fmt;

/// Image or sheet. What the calls do with one they do with the other.
#[derive(Clone, Copy, Debug, PartialEq, Eq, PartialOrd, Ord)]
pub enum Format {
    Image,
    Sheet,
}

/// Both of them.
pub const FORMATS: [Format; 2] = [Format::Image, Format::Sheet];

impl Format {
    /// The bytes of a map, given as its words, under a state number.
    pub fn write(self, state: u32, words: &[u64]) -> Vec<u8> {
        match self {
            Format::Image => image::write(state, words),
            Format::Sheet => sheet::write(state, words),
        }
    }

    /// The state number and the words that the bytes hold, or ground 15.
    pub fn read(self, bytes: &[u8]) -> Result<(u32, Vec<u64>), Ground> {
        match self {
            Format::Image => image::read(bytes),
            Format::Sheet => sheet::read(bytes),
        }
    }

    /// The number of bytes of a map, given as its words.
    pub fn length(self, words: &[u64]) -> usize {
        match self {
            Format::Image => image::length(words.len()),
            Format::Sheet => sheet::length(words),
        }
    }

    /// The most bytes that a map with so many offers has: for a sheet where no two of them are in one row.
    pub fn most_bytes(self, offers: usize) -> usize {
        match self {
            Format::Image => image::length(offers),
            Format::Sheet => sheet::HEADER + 12 * offers,
        }
    }

    /// The fewest bytes that there are: those of the empty map.
    pub fn fewest_bytes(self) -> usize {
        self.most_bytes(0)
    }
}

impl fmt::Display for Format {
    fn fmt(&self, f: &mut fmt::Formatter<'_>) -> fmt::Result {
        f.write_str(match self {
            Format::Image => "image",
            Format::Sheet => "sheet",
        })
    }
}
