//! Head, tally and memory as `show` prints them with `--explain`.

use crate::phrases::{count, entry, listed};
use cechnuol::raw::ENDS;
use ffi::library::Library;
use model::crc32;
use model::head::{SLOTS, STEPS};
use model::script::{Holding, Memory, Show};

/// The lines that show something. A part of a memory lies within it.
pub fn texts(library: &mut Library, what: Show) -> Vec<String> {
    let one = match what {
        Show::Head => head(&library.head()),
        Show::Tally => tally(library.tally()),
        Show::Memory(memory) => whole(library, memory),
        Show::Part { memory, at, count } => part(library, memory, at as usize, count as usize),
        Show::All => {
            let each = [
                Show::Head,
                Show::Tally,
                Show::Memory(Memory::Table),
                Show::Memory(Memory::Journal),
                Show::Memory(Memory::Bytes),
            ];
            return each.into_iter().flat_map(|what| texts(library, what)).collect();
        }
    };
    vec![one]
}

fn head(head: &[u64]) -> String {
    let [used, oldest, checkpoint, tip, rest @ .., depth] = head else { panic!("a head has 85 numbers") };
    let (open, rest) = rest.split_at(SLOTS);
    let (issued, ends) = rest.split_at(SLOTS);
    let steps = steps(tip.saturating_sub(*oldest), ends);
    let used = count(*used, "word");
    format!(
        "head: {used} of the table used; oldest {oldest}, checkpoint {checkpoint}, tip {tip}, depth {depth}; {steps}; {}",
        slots(open, issued)
    )
}

/// How many steps are held, and their marks; and any mark besides that is not 0.
fn steps(held: u64, ends: &[u64]) -> String {
    let (own, others) = ends.split_at(held.min(STEPS as u64) as usize);
    let mut text = match own {
        [] => "no step held".to_string(),
        own => {
            format!("{} held, marks {}", count(held, "step"), listed(own.iter().map(u64::to_string), ", "))
        }
    };
    for (index, end) in others.iter().enumerate().filter(|(_, end)| **end != 0) {
        text.push_str(&format!(", mark {} is {end}", own.len() + index));
    }
    text
}

/// The open slots, and any slot besides that has a number.
fn slots(open: &[u64], issued: &[u64]) -> String {
    let phrases: Vec<String> =
        (0..SLOTS).filter_map(|slot| slot_phrase(slot, open[slot], issued[slot])).collect();
    if phrases.is_empty() {
        "all slots closed".to_string()
    } else {
        phrases.join(", ")
    }
}

fn slot_phrase(slot: usize, open: u64, issued: u64) -> Option<String> {
    match (open, issued) {
        (0, 0) => None,
        (0, issued) => Some(format!("slot {slot} closed with number {issued}")),
        (1, issued) => Some(format!("slot {slot} open since state {issued}")),
        (flag, issued) => Some(format!("slot {slot} flag {flag} number {issued}")),
    }
}

fn tally([committed, rolled_back, flushed]: [u64; 3]) -> String {
    format!("tally: {} committed, {rolled_back} rolled back, {flushed} flushed", count(committed, "step"))
}

fn whole(library: &mut Library, memory: Memory) -> String {
    let memories = library.memories();
    let (length, crc) = match memory {
        Memory::Table => (count(memories.table.len() as u64, "word"), crc32::of_words(memories.table)),
        Memory::Journal => (count(memories.journal.len() as u64, "word"), crc32::of_words(memories.journal)),
        Memory::Bytes => {
            let bytes = memories.bytes;
            (count(bytes.len() as u64, "byte"), crc32::of_bytes(bytes.iter().copied()))
        }
    };
    format!("{memory}: {length}, CRC-32 {crc:08X}")
}

fn part(library: &mut Library, memory: Memory, at: usize, count: usize) -> String {
    let head = library.head();
    let memories = library.memories();
    let (words, used) = match memory {
        Memory::Table => (memories.table, head[0]),
        Memory::Journal => (memories.journal, head[ENDS..][..STEPS].iter().copied().max().unwrap_or(0)),
        Memory::Bytes => {
            let bytes = memories.bytes[at..at + count].iter().map(|byte| format!("{byte:02X}"));
            return format!("bytes from {at}: {}", listed(bytes, " "));
        }
    };
    let phrases = (at..at + count).map(|index| word_phrase(words[index], index as u64 >= used));
    format!("{memory} from {at}: {}", listed(phrases, ", "))
}

/// A word of table or journal; one past those in use is 0 and says nothing.
fn word_phrase(word: u64, unused: bool) -> String {
    if unused && word == 0 {
        "unused".to_string()
    } else {
        entry(word)
    }
}
