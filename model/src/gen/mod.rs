//! Seeded random scripts: every call, accepted and refused by every number that it can meet, sizes at their ends, damaged
//! memory and heads. The generator serves its own script as it goes, so it knows what it is lent.

mod calls;
mod coverage;
mod damage;
mod noise;
mod setup;

pub use coverage::{Asked, Coverage, Flushed, LookedUp, Numbers, Place, SheetHas, SHEETS_HAVE};

use crate::draw::Draw;
use crate::script::{perform, Command, Show, TallyField};
use crate::unit::{Call, Unit};
use crate::{sound, word};

/// A line of a generated script.
#[derive(Clone, Debug, PartialEq, Eq)]
pub enum Item {
    Command(Command),
    /// A line that is blank, a comment, or no call.
    Noise(Vec<u8>),
}

/// A random script with at least so many calls, and what it meets.
pub fn script(seed: u64, calls: usize) -> (Vec<u8>, Coverage) {
    let (items, coverage) = items(seed, calls);
    let title = format!("# model generate {seed} {calls}\n").into_bytes();
    ([title, text(&items)].concat(), coverage)
}

/// The lines as a script.
pub fn text(items: &[Item]) -> Vec<u8> {
    let mut text = Vec::new();
    for item in items {
        match item {
            Item::Command(command) => text.extend(command.to_string().bytes()),
            Item::Noise(line) => text.extend(line),
        }
        text.push(b'\n');
    }
    text
}

/// The lines of a random script with at least so many calls, and what it meets.
pub fn items(seed: u64, calls: usize) -> (Vec<Item>, Coverage) {
    let mut generator = Generator {
        draw: Draw::new(seed),
        unit: Unit::default(),
        items: Vec::new(),
        calls: 0,
        coverage: Coverage::default(),
    };
    if generator.draw.rng.percent(20) {
        generator.any_calls(3);
    }
    generator.set_up();
    while generator.calls < calls {
        generator.episode();
    }
    generator.emit(Command::Show(Show::All));
    (generator.items, generator.coverage)
}

struct Generator {
    draw: Draw,
    unit: Unit,
    items: Vec<Item>,
    calls: usize,
    coverage: Coverage,
}

impl Generator {
    /// Adds a command to the script and carries it out.
    fn emit(&mut self, command: Command) {
        if !matches!(command, Command::Show(_)) {
            let performed = perform(&mut self.unit, &command);
            debug_assert!(performed.is_ok(), "{command}: {performed:?}");
        }
        self.items.push(Item::Command(command));
    }

    /// Adds a call, notes what it meets, and at times shows everything.
    fn call(&mut self, call: Call) {
        let broken =
            sound::first_broken(&self.unit.store.table, &self.unit.store.journal, &self.unit.store.head);
        self.coverage.note_before(&self.unit, &call);
        let reply = self.unit.serve(&call);
        self.coverage.note(&call, reply.answer, broken, &self.unit);
        self.items.push(Item::Command(Command::Call(call)));
        self.calls += 1;
        if self.draw.rng.percent(35) {
            self.emit(Command::Show(Show::All));
        }
    }

    /// One thing after another: mostly a call, at times something that comes between calls.
    fn episode(&mut self) {
        match self.draw.rng.weighted(&[10, 70, 40, 25, 8, 10, 3, 25, 809]) {
            0 => self.set_up(),
            1 => self.break_a_clause(),
            2 => self.damage_at_random(),
            3 => self.noise(),
            4 => self.many_commits(),
            5 => self.poke_tally(),
            6 => self.many_offers(),
            7 => self.many_lookups(),
            _ => {
                let which = self.draw.rng.weighted(&calls::WEIGHTS);
                self.one_call(which);
            }
        }
        if !self.unit.store.is_sound() && self.draw.rng.percent(50) {
            self.set_up();
        }
    }

    /// Some calls on a store that is damaged or of wrong lengths.
    fn any_calls(&mut self, count: usize) {
        for _ in 0..count {
            let which = self.draw.rng.weighted(&calls::EVEN);
            self.one_call(which);
        }
    }

    /// Commits in a row, until the steps or the numbers run out.
    fn many_commits(&mut self) {
        let wide = self.draw.rng.percent(15);
        for _ in 0..self.draw.rng.within(2, 66) {
            let list = if wide { self.draw.changes() } else { self.draw.short_changes() };
            self.call(Call::Commit { list });
        }
    }

    /// Long lists of offers that are mostly new, until they are refused, and images and sheets of the states that they lead
    /// to.
    fn many_offers(&mut self) {
        let mut offer = self.draw.rng.below(100) as u32;
        for _ in 0..self.draw.rng.within(2, 64) {
            let rise = self.draw.rng.within(1, 3) as u32;
            let length = self.draw.rng.pick(&[1, 63, 64, 64]);
            let offers = (0..length).map(|index| offer + rise * index);
            let list = offers.map(|offer| word::entry(offer, self.draw.maybe_price())).collect();
            let tip = self.unit.store.head.tip;
            self.call(Call::Commit { list });
            if self.unit.store.head.tip == tip {
                break;
            }
            offer += rise * self.draw.rng.pick(&[32, length, length]);
        }
        for _ in 0..5 {
            self.one_call(calls::WRITE);
        }
    }

    /// A read that stays open while steps are committed and some of them flushed, and lookups of their offers.
    fn many_lookups(&mut self) {
        let at_most = [
            (calls::ISSUE, 1),
            (calls::COMMIT, 6),
            (calls::FLUSH, 2),
            (calls::COMMIT, 4),
            (calls::LOOK_UP, 12),
        ];
        for (which, most) in at_most {
            for _ in 0..self.draw.rng.within(1, most) {
                self.one_call(which);
            }
        }
    }

    /// Sets a count of the tally, often near its largest value.
    fn poke_tally(&mut self) {
        let value = match self.draw.rng.below(3) {
            0 => u64::MAX,
            1 => u64::MAX - self.draw.rng.below(4) as u64,
            _ => self.draw.rng.bits(),
        };
        let field = match self.draw.rng.below(3) {
            0 => TallyField::Committed(value),
            1 => TallyField::RolledBack(value),
            _ => TallyField::Flushed(value),
        };
        self.emit(Command::Tally(field));
    }
}
