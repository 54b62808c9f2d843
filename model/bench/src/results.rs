//! Everything measured in one run.

use crate::baseline::Memory;
use crate::calls;
use crate::fixed::{fixed, Fixed};
use crate::peer::{Loaded, KINDS};
use crate::scene::{Scene, Seats, Shape};
use crate::timing::{measure, Rounds, Side, Spread};
use ffi::Lent;

/// Offers in the table, and steps held.
pub const OFFERS: [usize; 3] = [1, 1000, 8000];
pub const HELD: [usize; 3] = [0, 8, 64];
/// Words lent: the longest table and the longest journal.
pub const TABLE: usize = 8000;
pub const JOURNAL: usize = 4096;
/// Words of a step.
const STEP: usize = 64;
/// Words lent for the plot; table and journal share them as the longest ones do.
const LENT: [usize; 9] = [64, 128, 256, 512, 1024, 2048, 4096, 8192, TABLE + JOURNAL];

/// The nanoseconds of a call of the unit and of the baseline, and their ratio.
#[derive(Clone, Copy, Debug)]
pub struct Figure {
    pub unit: Spread,
    pub rust: Spread,
    pub ratio: Spread,
}

impl Figure {
    /// Of the unit as the first side and the baseline as the second.
    pub fn of(rounds: &Rounds) -> Figure {
        Figure::of_sides(rounds, 0, 1)
    }

    fn of_sides(rounds: &Rounds, unit: usize, rust: usize) -> Figure {
        Figure { unit: rounds.time(unit), rust: rounds.time(rust), ratio: rounds.ratio(unit, rust) }
    }
}

/// A call with so many steps held, for each of [`OFFERS`].
pub struct Row {
    pub call: &'static str,
    pub held: usize,
    pub figures: Vec<Figure>,
}

/// The test of a store.
pub struct Soundness {
    pub offers: usize,
    pub held: usize,
    pub figure: Figure,
    /// The baseline in the form that can be vectorised, and the plain pass.
    pub without_exits: Spread,
    pub pass: Spread,
    /// How many times as long as the plain pass the unit takes, the baseline, and its other form.
    pub to_pass: [Spread; 3],
}

/// A call of the unit and of the peers, where they are installed.
pub struct Beside {
    pub call: &'static str,
    pub offers: usize,
    pub figure: Figure,
    pub peers: Vec<Option<Spread>>,
}

/// The times of a call against the words lent.
pub struct Line {
    pub call: &'static str,
    pub points: Vec<Point>,
}

/// Words lent, and the times of the unit and of the baseline; a plain pass has only one time, twice.
#[derive(Clone, Copy, Debug)]
pub struct Point {
    pub words: usize,
    pub figure: Figure,
    /// How many times as long the unit takes with the most words.
    pub to_last: f64,
}

/// All results.
pub struct Results {
    pub rows: Vec<Row>,
    /// Batches of so many orders.
    pub batches: Vec<(usize, Figure)>,
    pub fixed: Vec<Fixed>,
    pub soundness: Vec<Soundness>,
    pub beside: Vec<Beside>,
    pub lines: Vec<Line>,
}

/// What a call is measured on.
#[derive(Clone, Copy, PartialEq)]
pub enum Stage {
    /// A store with all steps above its checkpoint.
    Steps,
    /// The same with room for one more step.
    Room,
    /// A store with an early read, half of whose steps are flushed.
    Early,
    /// A store that holds 64 steps.
    Full,
    /// A store without steps: the call does not look at them.
    Any,
    /// A store with all steps above its checkpoint, and one without steps, whose tables have full rows. Those of the others have
    /// each offer in a row of its own.
    StepsInRows,
    AnyInRows,
}

impl Stage {
    pub fn scene(self, shape: Shape) -> Scene {
        match self {
            Stage::Early => Scene::with_early_read(shape),
            Stage::StepsInRows | Stage::AnyInRows => Scene::new(Shape { seats: Seats::All, ..shape }),
            _ => Scene::new(shape),
        }
    }
}

/// What makes a side of a scene.
pub type Make = for<'a> fn(&'a Scene) -> Side<'a>;

/// A call of the table, and its sides.
struct Call {
    name: &'static str,
    stage: Stage,
    sides: [Make; 2],
}

macro_rules! call {
    ($name:expr, $stage:ident, $call:ident) => {
        call!($name, $stage, $call, $call)
    };
    ($name:expr, $stage:ident, $unit:ident, $rust:ident) => {
        Call {
            name: $name,
            stage: Stage::$stage,
            sides: [calls::$unit::<Lent> as Make, calls::$rust::<Memory> as Make],
        }
    };
}

/// The image of the tip beside what makes the same one in two calls.
pub const TIP_BY_FLUSH: &str = "write_image, tip, (a) flushes and writes";

const CALLS: [Call; 23] = [
    call!("clear", Any, clear),
    call!("load", Any, load),
    call!("write_image, checkpoint", Steps, write_checkpoint),
    call!("write_image, tip", Steps, write_tip),
    call!(TIP_BY_FLUSH, Steps, write_tip, flush_and_write),
    call!("load_sheet, full rows", AnyInRows, load_sheet),
    call!("load_sheet, one seat a row", Any, load_sheet),
    call!("write_sheet, checkpoint, full rows", StepsInRows, write_checkpoint_sheet),
    call!("write_sheet, checkpoint, one seat a row", Steps, write_checkpoint_sheet),
    call!("write_sheet, tip, full rows", StepsInRows, write_tip_sheet),
    call!("write_sheet, tip, one seat a row", Steps, write_tip_sheet),
    call!("restart", Steps, restart),
    call!("commit of 64", Room, commit_64),
    call!("commit of 1", Room, commit_1),
    call!("commit, refused by 13", Full, refused_commit),
    call!("roll_back of all steps", Steps, roll_back),
    call!("flush of all steps", Steps, flush),
    call!("look_up, present", Steps, look_up_present),
    call!("look_up, absent", Steps, look_up_absent),
    call!("issue of 64", Steps, issue),
    call!("forward of 64", Early, forward),
    call!("release", Early, release),
    call!("release, refused by 3", Steps, soundness),
];

impl Call {
    /// The steps held at which the call is measured, where it is for so many.
    fn held(&self, held: usize) -> Option<usize> {
        match self.stage {
            Stage::Room => Some(held.min(63)),
            Stage::Full => (held == 64).then_some(held),
            Stage::Any | Stage::AnyInRows => (held == 0).then_some(held),
            Stage::Steps | Stage::StepsInRows | Stage::Early => Some(held),
        }
    }

    fn measured(&self, shape: Shape) -> Figure {
        let scene = self.stage.scene(shape);
        Figure::of(&measure(|| self.sides.map(|side| side(&scene)).into()))
    }

    fn row(&self, held: usize) -> Option<Row> {
        let held = self.held(held)?;
        let figures = OFFERS.map(|offers| self.measured(shape(offers, held)));
        Some(Row { call: self.name, held, figures: figures.into() })
    }
}

fn shape(offers: usize, held: usize) -> Shape {
    Shape { table: TABLE, journal: JOURNAL, offers, seats: Seats::One, held, step: STEP, read: STEP }
}

/// Measures everything; `tell` is told what comes next.
pub fn measure_all(mut tell: impl FnMut(&str)) -> Results {
    let mut rows = Vec::new();
    for call in &CALLS {
        tell(call.name);
        rows.extend(HELD.iter().filter_map(|&held| call.row(held)));
    }
    tell("price_batch");
    let batches = [1, 64].map(|orders| (orders, Figure::of(&batch(orders)))).into();
    tell("fixed cost");
    let fixed = fixed();
    tell("soundness");
    let cases = OFFERS.iter().flat_map(|&offers| HELD.map(|held| (offers, held)));
    let soundness = cases.map(|(offers, held)| soundness(offers, held)).collect();
    tell("peers");
    let beside = OFFERS.iter().flat_map(|&offers| beside(offers)).collect();
    tell("words lent");
    Results { rows, batches, fixed, soundness, beside, lines: lines() }
}

fn batch(orders: usize) -> Rounds {
    measure(|| vec![calls::price_batch::<Lent>(orders), calls::price_batch::<Memory>(orders)])
}

fn soundness(offers: usize, held: usize) -> Soundness {
    let scene = Scene::new(shape(offers, held));
    let rounds = measure(|| {
        vec![
            calls::soundness::<Lent>(&scene),
            calls::soundness::<Memory>(&scene),
            calls::soundness_without_exits(&scene),
            calls::plain_pass(&scene),
        ]
    });
    Soundness {
        offers,
        held,
        figure: Figure::of(&rounds),
        without_exits: rounds.time(2),
        pass: rounds.time(3),
        to_pass: [0, 1, 2].map(|side| rounds.ratio(side, 3)),
    }
}

/// Lookups and commits beside the peers, with 8 steps held.
fn beside(offers: usize) -> [Beside; 2] {
    let scene = Scene::new(shape(offers, 8));
    let loaded: Vec<Option<Loaded>> = KINDS.iter().map(|kind| kind.load(&scene)).collect();
    let row = |call, unit: [Make; 2], of_peer: &dyn for<'a> Fn(&'a Loaded) -> Side<'a>| {
        let peers = || loaded.iter().flatten().map(of_peer);
        let rounds = measure(|| unit.iter().map(|side| side(&scene)).chain(peers()).collect());
        let mut sides = 2..;
        let time =
            |peer: &Option<Loaded>| peer.as_ref().and_then(|_| sides.next()).map(|side| rounds.time(side));
        Beside { call, offers, figure: Figure::of(&rounds), peers: loaded.iter().map(time).collect() }
    };
    [
        row(
            "look_up, present",
            [calls::look_up_present::<Lent>, calls::look_up_present::<Memory>],
            &|peer| peer.look_up(&scene),
        ),
        row("commit of 64", [calls::commit_64::<Lent>, calls::commit_64::<Memory>], &|peer| {
            peer.commit(&scene)
        }),
    ]
}

/// The calls of the plot, on stores whose tables are full and whose journals are half full.
fn lines() -> Vec<Line> {
    let scenes: Vec<Scene> = LENT.into_iter().map(|words| Scene::new(half_full(words))).collect();
    let line = |call, sides: [Make; 2]| {
        let rounds = measure(|| scenes.iter().flat_map(|scene| sides.map(|side| side(scene))).collect());
        let last = 2 * (scenes.len() - 1);
        let points = LENT.iter().zip((0..).step_by(2)).map(|(&words, unit)| Point {
            words,
            figure: Figure::of_sides(&rounds, unit, unit + 1),
            to_last: rounds.ratio(last, unit).median,
        });
        Line { call, points: points.collect() }
    };
    vec![
        line("look_up", [calls::look_up_present::<Lent>, calls::look_up_present::<Memory>]),
        line("commit", [calls::commit_step::<Lent>, calls::commit_step::<Memory>]),
        line("flush", [calls::flush::<Lent>, calls::flush::<Memory>]),
        line("plain pass", [calls::plain_pass, calls::plain_pass]),
    ]
}

/// A full table and a journal that is half full, of so many words in all; a read is of as many offers as a step has entries.
pub fn half_full(words: usize) -> Shape {
    let table = words * TABLE / (TABLE + JOURNAL);
    let journal = words - table;
    let step = (journal / 64).max(1);
    let held = (journal / step / 2).min(32);
    Shape { table, journal, offers: table, seats: Seats::One, held, step, read: step }
}

#[cfg(test)]
mod tests {
    use super::{shape, CALLS, HELD, OFFERS};

    /// A side tests its answer where it is made. No time is asserted.
    #[test]
    fn every_call_is_accepted() {
        for (offers, held) in OFFERS.iter().flat_map(|&offers| HELD.map(|held| (offers, held))) {
            for (call, held) in CALLS.iter().filter_map(|call| Some((call, call.held(held)?))) {
                let scene = call.stage.scene(shape(offers, held));
                call.sides.iter().for_each(|side| assert!(side(&scene)(2).is_finite(), "{}", call.name));
            }
        }
    }
}
