//! Damage to memory and heads: each clause of soundness broken alone, and random pokes. What is damaged is mostly repaired.

use super::Generator;
use crate::head::{MOST_DEPTH, STEPS};
use crate::script::{Command, HeadField, Memory, Poke};
use crate::sound::{Clause, CLAUSES};
use crate::unit::Unit;
use crate::word;

impl Generator {
    /// Breaks a clause, makes some calls, and repairs the store if no call did.
    pub(super) fn break_a_clause(&mut self) {
        if !self.unit.store.is_sound() || self.unit.store.table.is_empty() {
            return;
        }
        let clause = self.draw.rng.pick(&CLAUSES);
        if let Some(commands) = self.commands_that_break(clause) {
            self.damage(commands);
        }
    }

    /// Pokes anything anywhere.
    pub(super) fn damage_at_random(&mut self) {
        let count = self.draw.rng.within(1, 3);
        let commands = (0..count).filter_map(|_| self.random_poke()).collect();
        self.damage(commands);
    }

    fn damage(&mut self, commands: Vec<Command>) {
        let mut repairs = Vec::new();
        for command in commands {
            repairs.extend(undoing(&self.unit, &command));
            self.emit(command);
        }
        let count = self.draw.rng.within(1, 4);
        self.any_calls(count);
        if !self.unit.store.is_sound() && self.draw.rng.percent(90) {
            while let Some(repair) = repairs.pop() {
                self.emit(repair);
            }
        }
    }

    /// Commands that break a clause of a sound store and, as far as can be, no other; none if this store has no place for it.
    fn commands_that_break(&mut self, clause: Clause) -> Option<Vec<Command>> {
        let store = self.unit.store.clone();
        let head = &store.head;
        let used = head.used as usize;
        let steps = (head.tip - head.oldest) as usize;
        let last = steps.checked_sub(1);
        let end = last.map_or(0, |last| head.ends[last]);
        let rng = &mut self.draw.rng;
        let one = |field| Some(vec![Command::Head(field)]);
        match clause {
            Clause::OldestAboveCheckpoint => one(HeadField::Oldest(head.checkpoint.checked_add(1)?)),
            Clause::CheckpointAboveTip => {
                if rng.percent(50) {
                    one(HeadField::Checkpoint(head.tip.checked_add(1)?))
                } else {
                    one(HeadField::Tip(head.checkpoint.checked_sub(1)?))
                }
            }
            Clause::TooManySteps => one(HeadField::Tip(head.oldest.checked_add(65)?)),
            Clause::UsedPastTable => {
                let past = store.table.len() as u64 + 1;
                one(HeadField::Used(rng.pick(&[past, 8001, u64::MAX])))
            }
            Clause::TableKind => {
                let at = rng.below(some(used)?);
                Some(vec![poke_table(at, store.table[at] % (1 << 63))])
            }
            Clause::TableOrder => {
                let at = rng.below(some(used.saturating_sub(1))?) + 1;
                let lower = word::offer(store.table[at - 1]);
                Some(vec![poke_table(at, word::entry(lower, Some(rng.bits() as u32)))])
            }
            Clause::TableRest => {
                let rest = some(store.table.len() - used)?;
                let at = used + rng.below(rest);
                Some(vec![poke_table(at, rng.pick(&[1, word::entry(word::OFFERS - 1, Some(7))]))])
            }
            Clause::MarkFalls => {
                let mark = rng.below(some(steps.saturating_sub(1))?) + 1;
                one(HeadField::Ends(mark, head.ends[mark - 1].checked_sub(1)?))
            }
            Clause::MarkPastJournal => {
                let past = store.journal.len() as u64 + 1;
                one(HeadField::Ends(last?, rng.pick(&[past, u64::MAX])))
            }
            Clause::StepTooLong => {
                let start = last?.checked_sub(1).map_or(0, |before| head.ends[before]);
                some((store.journal.len() as u64).checked_sub(start + 65)? as usize + 1)?;
                let rise = word::entry(1, None);
                Some(vec![
                    Command::Fill { memory: Memory::Journal, at: start, count: 65, word: 0, rise },
                    Command::Head(HeadField::Ends(last?, start + 65)),
                ])
            }
            Clause::MarkNotInUse => {
                let mark = steps + rng.below(some(STEPS - steps)?);
                one(HeadField::Ends(mark, rng.pick(&[1, end.max(1), u64::MAX])))
            }
            Clause::StepWord => {
                let at = rng.below(some(end as usize)?);
                let price = 1 + rng.bits() as u32 % 9;
                let offer = word::offer(store.journal[at]);
                Some(vec![poke_journal(at, word::entry(offer, None) | u64::from(price))])
            }
            Clause::StepOrder => {
                let starts: Vec<u64> = [0].into_iter().chain(head.ends[..steps].iter().copied()).collect();
                let inner: Vec<usize> =
                    (1..end as usize).filter(|&at| !starts.contains(&(at as u64))).collect();
                some(inner.len())?;
                let at = rng.pick(&inner);
                Some(vec![poke_journal(at, word::entry(word::offer(store.journal[at - 1]), None))])
            }
            Clause::JournalRest => {
                let rest = some(store.journal.len() - end as usize)?;
                let at = end as usize + rng.below(rest);
                Some(vec![poke_journal(at, rng.pick(&[1, 1 << 63]))])
            }
            Clause::ClosedSlot => {
                let slot = self.slot_that_is(false)?;
                let number = self.draw.rng.pick(&[head.oldest.max(1), 1, u32::MAX]);
                one(HeadField::Issued(slot, number))
            }
            Clause::SlotAboveCheckpoint => {
                let slot = self.slot_that_is(true)?;
                one(HeadField::Issued(slot, head.checkpoint.checked_add(1)?))
            }
            Clause::OldestNotLeast => {
                let slot = self.draw.rng.below(head.held.len());
                Some(vec![
                    Command::Head(HeadField::Held(slot, true)),
                    Command::Head(HeadField::Issued(slot, head.oldest.checked_sub(1)?)),
                ])
            }
            Clause::DepthAboveMost => {
                let any = (rng.bits() as u32).max(MOST_DEPTH + 1);
                one(HeadField::Depth(rng.pick(&[MOST_DEPTH + 1, 127, 128, 1 << 8, 1 << 16, u32::MAX, any])))
            }
        }
    }

    fn slot_that_is(&mut self, open: bool) -> Option<usize> {
        let held = &self.unit.store.head.held;
        let slots: Vec<usize> = (0..held.len()).filter(|&slot| held[slot] == open).collect();
        some(slots.len())?;
        Some(self.draw.rng.pick(&slots))
    }

    /// A poke of any word, byte or field; none if there is no word to poke.
    fn random_poke(&mut self) -> Option<Command> {
        let word = self.random_word();
        let number = self.random_number();
        let store = &self.unit.store;
        let rng = &mut self.draw.rng;
        let table = rng.below(store.table.len().max(1));
        let journal = rng.below(store.journal.len().max(1));
        let small = rng.below(6) as u32;
        Some(match rng.below(11) {
            0 => poke_table(some(store.table.len()).map(|_| table)?, word),
            1 => poke_table(some(store.table.len()).map(|_| table.min(store.head.used as usize))?, word),
            2 => poke_journal(some(store.journal.len()).map(|_| journal)?, word),
            3 => poke_journal(0, some(store.journal.len()).map(|_| word)?),
            4 => Command::Head(HeadField::Used(rng.pick(&[
                0,
                1,
                2,
                5,
                store.head.used.wrapping_add(1),
                number,
            ]))),
            5 => Command::Head(HeadField::Oldest(number as u32)),
            6 => Command::Head(HeadField::Checkpoint(number as u32)),
            7 => Command::Head(HeadField::Tip(number as u32)),
            8 => Command::Head(HeadField::Ends(rng.below(STEPS), number)),
            9 => {
                Command::Head(HeadField::Depth(rng.pick(&[small, MOST_DEPTH, MOST_DEPTH + 1, number as u32])))
            }
            _ => match rng.below(2) {
                0 => Command::Head(HeadField::Held(rng.below(8), rng.percent(50))),
                _ => Command::Head(HeadField::Issued(rng.below(8), number as u32)),
            },
        })
    }

    fn random_word(&mut self) -> u64 {
        let entry = word::entry(self.draw.offer(), self.draw.maybe_price());
        let any = self.draw.rng.bits();
        self.draw.rng.pick(&[0, 1, entry, any])
    }

    /// A number near one of the head's, or anything.
    fn random_number(&mut self) -> u64 {
        let head = &self.unit.store.head;
        let near = [head.oldest, head.checkpoint, head.tip].map(u64::from);
        let near = self.draw.rng.pick(&near).wrapping_add(self.draw.rng.below(3) as u64).wrapping_sub(1);
        let any = self.draw.rng.bits();
        let small = self.draw.rng.below(70) as u64;
        self.draw.rng.pick(&[near, near, small, any])
    }
}

/// A number if it is not 0.
fn some(number: usize) -> Option<usize> {
    (number > 0).then_some(number)
}

fn poke_table(at: usize, word: u64) -> Command {
    Command::Poke { at: at as u64, poke: Poke::Table(vec![word]) }
}

fn poke_journal(at: usize, word: u64) -> Command {
    Command::Poke { at: at as u64, poke: Poke::Journal(vec![word]) }
}

/// The command that sets back what a poke, a fill of the journal or a head's field is about to change.
fn undoing(unit: &Unit, command: &Command) -> Option<Command> {
    let store = &unit.store;
    let head = &store.head;
    let old = |words: &[u64], at: u64, count: usize| {
        words.get(at as usize..at as usize + count).map(<[u64]>::to_vec)
    };
    Some(match command {
        Command::Poke { at, poke: Poke::Table(words) } => {
            Command::Poke { at: *at, poke: Poke::Table(old(&store.table, *at, words.len())?) }
        }
        Command::Poke { at, poke: Poke::Journal(words) } => {
            Command::Poke { at: *at, poke: Poke::Journal(old(&store.journal, *at, words.len())?) }
        }
        Command::Fill { memory: Memory::Journal, at, count, .. } => {
            Command::Poke { at: *at, poke: Poke::Journal(old(&store.journal, *at, *count as usize)?) }
        }
        Command::Head(field) => Command::Head(match *field {
            HeadField::Used(_) => HeadField::Used(head.used),
            HeadField::Oldest(_) => HeadField::Oldest(head.oldest),
            HeadField::Checkpoint(_) => HeadField::Checkpoint(head.checkpoint),
            HeadField::Tip(_) => HeadField::Tip(head.tip),
            HeadField::Depth(_) => HeadField::Depth(head.depth),
            HeadField::Held(slot, _) => HeadField::Held(slot, head.held[slot]),
            HeadField::Issued(slot, _) => HeadField::Issued(slot, head.issued[slot]),
            HeadField::Ends(mark, _) => HeadField::Ends(mark, head.ends[mark]),
        }),
        _ => return None,
    })
}
