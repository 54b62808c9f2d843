//! The listing of an image.

use crate::ground::{unless, Ground};
use crate::{image, word};
use std::fmt::Write;

/// The words of the table into which the listing loads.
const TABLE_WORDS: usize = 8000;

/// What the listing program prints for its whole input.
pub fn listing(input: &[u8]) -> String {
    match loaded(input) {
        Ok((state, words)) => text(state, &words),
        Err(ground) => format!("refused {}\n", ground.number()),
    }
}

/// The state and the words of the image, loaded with depth 0, which no ground turns away.
fn loaded(input: &[u8]) -> Result<(u32, Vec<u64>), Ground> {
    unless(input.len() <= image::length(TABLE_WORDS), Ground::Image)?;
    let (state, words) = image::read(input)?;
    unless(words.len() <= TABLE_WORDS, Ground::TableFull)?;
    Ok((state, words))
}

fn text(state: u32, words: &[u64]) -> String {
    let mut text = format!("state {state} offers {}\n", words.len());
    for &word in words {
        // Writing into a String cannot fail.
        let _ = writeln!(text, "{} {}", word::offer(word), word::price(word));
    }
    text
}
