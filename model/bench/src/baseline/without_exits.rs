//! The test of a store once more, in a form that the compiler can vectorise: a scan does not stop at the first word that is wrong,
//! but gathers in the highest bit whether all are right.

use super::head::{Head, STEPS};
use super::sound::{numbers_fit, slots_fit};
use super::word::LIST_WORDS;

const HIGHEST: u64 = 1 << 63;
const OFFER: u64 = 0x7FFF_FFFF << 32;
const PRICE: u64 = 0xFFFF_FFFF;

/// Whether table, journal and head are sound.
pub fn is_sound(table: &[u64], journal: &[u64], head: &Head) -> bool {
    is_table(table, head.used)
        && numbers_fit(head)
        && is_journal(journal, &head.ends, head.steps_to(head.tip))
        && slots_fit(head)
}

fn is_table(table: &[u64], used: usize) -> bool {
    table.split_at_checked(used).is_some_and(|(used, rest)| is_map(used) && are_zero(rest))
}

fn is_journal(journal: &[u64], ends: &[usize; STEPS], steps: usize) -> bool {
    let (in_use, others) = ends.split_at(steps);
    let mut start = 0;
    in_use.iter().all(|&end| {
        let step = journal.get(start..end);
        start = end;
        step.is_some_and(is_list)
    }) && are_zero(&journal[start..])
        && others.iter().all(|&end| end == 0)
}

fn are_zero(words: &[u64]) -> bool {
    words.iter().fold(0, |all, &word| all | word) == 0
}

/// The difference of two numbers below 2^63 has the highest bit if the first is lower.
fn is_map(words: &[u64]) -> bool {
    let mut last = (1 << 31) - 1;
    let rise = |all, &word: &u64| {
        let before = std::mem::replace(&mut last, word >> 32);
        all & before.wrapping_sub(word >> 32)
    };
    words.iter().fold(HIGHEST, rise) == HIGHEST
}

/// A word with the highest bit if it is of kind 1 or its price is 0.
fn entry_bit(word: u64) -> u64 {
    word | (HIGHEST - (word & PRICE))
}

fn is_list(words: &[u64]) -> bool {
    let Some((&first, others)) = words.split_first() else { return true };
    let mut last = first & OFFER;
    let rise = |all, &word: &u64| {
        let before = std::mem::replace(&mut last, word & OFFER);
        all & entry_bit(word) & before.wrapping_sub(word & OFFER)
    };
    words.len() <= LIST_WORDS && others.iter().fold(HIGHEST & entry_bit(first), rise) == HIGHEST
}
