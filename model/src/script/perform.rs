//! Carrying out a command, and what it prints.

use super::file::file_bytes;
use super::write::{bytes_text, words_text};
use super::{Command, Holding, Memories, Memory, Poke, Reason, Show};
use crate::crc32;
use crate::head::SLOTS;
use crate::unit::Call;

/// Carries out a command and gives the lines that it prints, or why it is no call on the memory lent.
pub fn perform(holding: &mut impl Holding, command: &Command) -> Result<Vec<String>, Reason> {
    match command {
        Command::Lend { memory, length } => lend(holding.memories(), *memory, *length),
        Command::Poke { at, poke } => put(holding.memories(), *at, poke)?,
        Command::Fill { memory, at, count, word, rise } => {
            fill(holding.memories(), *memory, *at, *count, *word, *rise)?;
        }
        Command::Head(field) => holding.set_head(*field),
        Command::Tally(field) => holding.set_tally(*field),
        Command::Show(what) => return show(holding, *what),
        Command::Call(call) => return Ok(vec![holding.answer(call)]),
        Command::LoadFile { depth, format, name } => {
            *holding.memories().bytes = file_bytes(name)?;
            return Ok(vec![holding.answer(&Call::Load { depth: *depth, format: *format })]);
        }
    }
    Ok(Vec::new())
}

fn lend(memories: Memories, memory: Memory, length: u64) {
    match memory {
        Memory::Table => *memories.table = vec![0; length as usize],
        Memory::Journal => *memories.journal = vec![0; length as usize],
        Memory::Bytes => *memories.bytes = vec![0; length as usize],
    }
}

/// The part of a memory from an index on, so many long, if it lies within the memory.
fn part<T>(memory: Memory, lent: &mut [T], at: u64, count: u64) -> Result<&mut [T], Reason> {
    let past_end = Reason::PastEnd { memory, length: lent.len() };
    let end = at.checked_add(count).filter(|end| *end <= lent.len() as u64);
    end.map(|end| &mut lent[at as usize..end as usize]).ok_or(past_end)
}

fn put(memories: Memories, at: u64, poke: &Poke) -> Result<(), Reason> {
    match poke {
        Poke::Table(words) => {
            part(Memory::Table, memories.table, at, words.len() as u64)?.copy_from_slice(words);
        }
        Poke::Journal(words) => {
            part(Memory::Journal, memories.journal, at, words.len() as u64)?.copy_from_slice(words);
        }
        Poke::Bytes(bytes) => {
            part(Memory::Bytes, memories.bytes, at, bytes.len() as u64)?.copy_from_slice(bytes);
        }
    }
    Ok(())
}

fn fill(memories: Memories, memory: Memory, at: u64, count: u64, word: u64, rise: u64) -> Result<(), Reason> {
    let series = |index: usize| word.wrapping_add(rise.wrapping_mul(index as u64));
    let words = match memory {
        Memory::Table => memories.table,
        Memory::Journal => memories.journal,
        Memory::Bytes => {
            let bytes = part(memory, memories.bytes, at, count.saturating_mul(8))?;
            for (index, bytes) in bytes.chunks_exact_mut(8).enumerate() {
                bytes.copy_from_slice(&series(index).to_be_bytes());
            }
            return Ok(());
        }
    };
    for (index, word) in part(memory, words, at, count)?.iter_mut().enumerate() {
        *word = series(index);
    }
    Ok(())
}

fn show(holding: &mut impl Holding, what: Show) -> Result<Vec<String>, Reason> {
    let text = match what {
        Show::Head => head_text(&holding.head()),
        Show::Tally => tally_text(holding.tally()),
        Show::Memory(memory) => memory_text(holding.memories(), memory),
        Show::Part { memory, at, count } => part_text(holding.memories(), memory, at, count)?,
        Show::All => return Ok(all_texts(holding)),
    };
    Ok(vec![text])
}

fn all_texts(holding: &mut impl Holding) -> Vec<String> {
    vec![
        head_text(&holding.head()),
        tally_text(holding.tally()),
        memory_text(holding.memories(), Memory::Table),
        memory_text(holding.memories(), Memory::Journal),
        memory_text(holding.memories(), Memory::Bytes),
    ]
}

/// The head's numbers, each as it stands: one that does not fit its field shows.
fn head_text(head: &[u64]) -> String {
    let [used, oldest, checkpoint, tip, rest @ .., depth] = head else { panic!("a head has 85 numbers") };
    let (held, rest) = rest.split_at(SLOTS);
    let (issued, ends) = rest.split_at(SLOTS);
    let held: String = held.iter().map(u64::to_string).collect();
    let issued: String = issued.iter().map(|number| format!(" {number}")).collect();
    let marks = ends.iter().rposition(|&end| end != 0).map_or(0, |last| last + 1);
    let ends: String = ends[..marks].iter().map(|end| format!(" {end}")).collect();
    format!(
        "head used {used} oldest {oldest} checkpoint {checkpoint} tip {tip} depth {depth} held {held} issued{issued} ends{ends}"
    )
}

fn tally_text([committed, rolled_back, flushed]: [u64; 3]) -> String {
    format!("tally committed {committed} rolled_back {rolled_back} flushed {flushed}")
}

fn memory_text(memories: Memories, memory: Memory) -> String {
    let (length, crc) = match memory {
        Memory::Table => (memories.table.len(), crc32::of_words(memories.table)),
        Memory::Journal => (memories.journal.len(), crc32::of_words(memories.journal)),
        Memory::Bytes => (memories.bytes.len(), crc32::of_bytes(memories.bytes.iter().copied())),
    };
    format!("{memory} {length} crc {crc:08X}")
}

fn part_text(memories: Memories, memory: Memory, at: u64, count: u64) -> Result<String, Reason> {
    let values = match memory {
        Memory::Table => words_text(part(memory, memories.table, at, count)?),
        Memory::Journal => words_text(part(memory, memories.journal, at, count)?),
        Memory::Bytes => bytes_text(part(memory, memories.bytes, at, count)?),
    };
    Ok(format!("{memory} from {at}{values}"))
}
