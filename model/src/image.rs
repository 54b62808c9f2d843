//! Images: state number 32 bits, count 16 bits, then the words of a map, most significant byte first.

use crate::ground::{unless, Ground};
use crate::word;

/// The bytes before the words.
pub const HEADER: usize = 6;

/// The length of the image of a map with so many offers.
pub fn length(count: usize) -> usize {
    HEADER + 8 * count
}

/// The image of a map, given as its words. A state has at most 12,096 offers, so the count has 16 bits.
pub fn write(state: u32, words: &[u64]) -> Vec<u8> {
    let count = words.len() as u16;
    let mut bytes = Vec::with_capacity(length(words.len()));
    bytes.extend(state.to_be_bytes());
    bytes.extend(count.to_be_bytes());
    bytes.extend(words.iter().flat_map(|word| word.to_be_bytes()));
    bytes
}

/// The state number and the words of an image, or ground 15.
pub fn read(bytes: &[u8]) -> Result<(u32, Vec<u64>), Ground> {
    unless(bytes.len() >= HEADER, Ground::Image)?;
    let (header, rest) = bytes.split_at(HEADER);
    let state = header[..4].iter().fold(0, |number, &byte| number << 8 | u32::from(byte));
    let count = usize::from(header[4]) << 8 | usize::from(header[5]);
    unless(bytes.len() == length(count), Ground::Image)?;
    let words: Vec<u64> = rest.chunks(8).map(big_endian).collect();
    unless(word::is_map(&words), Ground::Image)?;
    Ok((state, words))
}

fn big_endian(bytes: &[u8]) -> u64 {
    bytes.iter().fold(0, |number, &byte| number << 8 | u64::from(byte))
}
