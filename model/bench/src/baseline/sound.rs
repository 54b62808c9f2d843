//! When a store is sound.

use super::head::{Head, MOST_DEPTH, STEPS};
use super::word;

/// Whether table, journal and head are sound.
pub fn is_sound(table: &[u64], journal: &[u64], head: &Head) -> bool {
    is_table(table, head.used)
        && numbers_fit(head)
        && is_journal(journal, &head.ends, head.steps_to(head.tip))
        && slots_fit(head)
}

/// The used words are a map, and zeros follow.
fn is_table(table: &[u64], used: usize) -> bool {
    table.split_at_checked(used).is_some_and(|(used, rest)| word::is_map(used) && word::are_zero(rest))
}

pub(super) fn numbers_fit(head: &Head) -> bool {
    head.oldest <= head.checkpoint
        && head.checkpoint <= head.tip
        && head.steps_to(head.tip) <= STEPS
        && head.depth <= MOST_DEPTH
}

/// The marks in use end lists that lie one after another, zeros follow, and the other marks are 0.
fn is_journal(journal: &[u64], ends: &[usize; STEPS], steps: usize) -> bool {
    let (in_use, others) = ends.split_at(steps);
    let mut start = 0;
    in_use.iter().all(|&end| {
        let step = journal.get(start..end);
        start = end;
        step.is_some_and(word::is_list)
    }) && word::are_zero(&journal[start..])
        && others.iter().all(|&end| end == 0)
}

/// No open slot is above the checkpoint, the others record 0, and the oldest number is the least.
pub(super) fn slots_fit(head: &Head) -> bool {
    let mut slots = head.held.iter().zip(&head.issued);
    slots.all(|(&held, &issued)| if held { issued <= head.checkpoint } else { issued == 0 })
        && head.oldest == head.least()
}
