//! When a store is sound: the papers' sentences on table, journal and head, a clause each.

use crate::head::{Head, MOST_DEPTH, STEPS};
use crate::word;

/// One clause of soundness, by what is wrong when it is broken.
#[derive(Clone, Copy, Debug, PartialEq, Eq, PartialOrd, Ord)]
pub enum Clause {
    /// The oldest number is above the checkpoint.
    OldestAboveCheckpoint,
    /// The checkpoint is above the tip.
    CheckpointAboveTip,
    /// Tip less oldest is more than 64.
    TooManySteps,
    /// More table words are used than are lent.
    UsedPastTable,
    /// A used table word is of kind 0.
    TableKind,
    /// The offers of the used table words do not rise.
    TableOrder,
    /// A table word that is not used is not zero.
    TableRest,
    /// A mark is below the one before it.
    MarkFalls,
    /// A mark is past the end of the journal.
    MarkPastJournal,
    /// A step has more than 64 words.
    StepTooLong,
    /// A mark that is not in use is not 0.
    MarkNotInUse,
    /// A word of a step is of kind 0 and has a price.
    StepWord,
    /// The offers of a step do not rise.
    StepOrder,
    /// A journal word past the steps is not zero.
    JournalRest,
    /// A closed slot records a number other than 0.
    ClosedSlot,
    /// An open slot's number is above the checkpoint.
    SlotAboveCheckpoint,
    /// The oldest number is not the least of the checkpoint and the open slots' numbers.
    OldestNotLeast,
    /// The depth is above 63.
    DepthAboveMost,
}

/// All clauses, in the order in which they are tested.
pub const CLAUSES: [Clause; 18] = [
    Clause::OldestAboveCheckpoint,
    Clause::CheckpointAboveTip,
    Clause::TooManySteps,
    Clause::UsedPastTable,
    Clause::TableKind,
    Clause::TableOrder,
    Clause::TableRest,
    Clause::MarkFalls,
    Clause::MarkPastJournal,
    Clause::StepTooLong,
    Clause::MarkNotInUse,
    Clause::StepWord,
    Clause::StepOrder,
    Clause::JournalRest,
    Clause::ClosedSlot,
    Clause::SlotAboveCheckpoint,
    Clause::OldestNotLeast,
    Clause::DepthAboveMost,
];

/// The first clause that a store breaks, or none if it is sound.
pub fn first_broken(table: &[u64], journal: &[u64], head: &Head) -> Option<Clause> {
    all_clauses(table, journal, head).err()
}

fn all_clauses(table: &[u64], journal: &[u64], head: &Head) -> Result<(), Clause> {
    let steps = held_steps(head)?;
    table_clauses(table, head.used)?;
    let ends = mark_clauses(journal.len(), &head.ends, steps)?;
    step_clauses(journal, &ends)?;
    slot_clauses(head)?;
    unless(head.depth <= MOST_DEPTH, Clause::DepthAboveMost)
}

fn unless(test: bool, clause: Clause) -> Result<(), Clause> {
    if test {
        Ok(())
    } else {
        Err(clause)
    }
}

/// The number of held steps: floor ≤ anchor ≤ tip, tip − floor at most 64.
fn held_steps(head: &Head) -> Result<usize, Clause> {
    unless(head.oldest <= head.checkpoint, Clause::OldestAboveCheckpoint)?;
    unless(head.checkpoint <= head.tip, Clause::CheckpointAboveTip)?;
    let steps = (head.tip - head.oldest) as usize;
    unless(steps <= STEPS, Clause::TooManySteps)?;
    Ok(steps)
}

/// The table: used words of kind 1, offers strictly rising, then zeros.
fn table_clauses(table: &[u64], used: u64) -> Result<(), Clause> {
    unless(used <= table.len() as u64, Clause::UsedPastTable)?;
    let (used, rest) = table.split_at(used as usize);
    unless(used.iter().all(|&word| word::kind(word) == 1), Clause::TableKind)?;
    unless(word::rises(used), Clause::TableOrder)?;
    unless(rest.iter().all(|&word| word == 0), Clause::TableRest)
}

/// The marks: each the count of journal words through the end of its step, those not in use 0.
fn mark_clauses(journal: usize, marks: &[u64; STEPS], steps: usize) -> Result<Vec<usize>, Clause> {
    let (in_use, rest) = marks.split_at(steps);
    let mut start = 0;
    for &end in in_use {
        unless(start <= end, Clause::MarkFalls)?;
        unless(end <= journal as u64, Clause::MarkPastJournal)?;
        unless(end - start <= word::LIST_WORDS as u64, Clause::StepTooLong)?;
        start = end;
    }
    unless(rest.iter().all(|&mark| mark == 0), Clause::MarkNotInUse)?;
    Ok(in_use.iter().map(|&end| end as usize).collect())
}

/// The journal: the lists of the held steps, oldest first, then zeros.
fn step_clauses(journal: &[u64], ends: &[usize]) -> Result<(), Clause> {
    let mut start = 0;
    for &end in ends {
        let step = &journal[start..end];
        unless(step.iter().all(|&word| word::is_entry(word)), Clause::StepWord)?;
        unless(word::rises(step), Clause::StepOrder)?;
        start = end;
    }
    unless(journal[start..].iter().all(|&word| word == 0), Clause::JournalRest)
}

/// The slots, and the floor as the least of the anchor and the open slots' numbers.
fn slot_clauses(head: &Head) -> Result<(), Clause> {
    let closed_are_0 = head.held.iter().zip(&head.issued).all(|(&held, &issued)| held || issued == 0);
    unless(closed_are_0, Clause::ClosedSlot)?;
    unless(head.open_numbers().all(|number| number <= head.checkpoint), Clause::SlotAboveCheckpoint)?;
    unless(head.oldest == head.least(), Clause::OldestNotLeast)
}
