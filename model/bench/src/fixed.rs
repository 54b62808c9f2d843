//! The fixed cost of a call: few words are lent, and each list has one word.

use crate::baseline::{LentWords, Memory};
use crate::calls;
use crate::results::{half_full, Figure, Make, Stage};
use crate::timing::{measure, Rounds, Side, Spread};
use ffi::Lent;

/// Words lent, table and journal together.
pub const WORDS: usize = 64;

/// A call with few words lent.
pub struct Fixed {
    pub call: &'static str,
    pub figure: Figure,
    /// The baseline on lent words, and how many times as long the unit takes.
    pub words: Spread,
    pub to_words: Spread,
}

/// A call, what it is measured on, and its sides.
struct Call {
    name: &'static str,
    stage: Stage,
    sides: [Make; 3],
}

macro_rules! call {
    ($name:literal, $stage:ident, $call:ident) => {
        Call {
            name: $name,
            stage: Stage::$stage,
            sides: [
                calls::$call::<Lent> as Make,
                calls::$call::<Memory> as Make,
                calls::$call::<LentWords> as Make,
            ],
        }
    };
}

const CALLS: [Call; 16] = [
    call!("clear", Steps, clear),
    call!("load", Steps, load),
    call!("write_image, checkpoint", Steps, write_checkpoint),
    call!("write_image, tip", Steps, write_tip),
    call!("load_sheet", Steps, load_sheet),
    call!("write_sheet, checkpoint", Steps, write_checkpoint_sheet),
    call!("write_sheet, tip", Steps, write_tip_sheet),
    call!("restart", Steps, restart),
    call!("commit of 1", Steps, commit_1),
    call!("roll_back of all steps", Steps, roll_back),
    call!("flush of all steps", Steps, flush),
    call!("look_up, present", Steps, look_up_present),
    call!("issue of 1", Steps, issue),
    call!("forward of 1", Early, forward),
    call!("release", Early, release),
    call!("release, refused by 3", Steps, soundness),
];

/// Measures each call.
pub fn fixed() -> Vec<Fixed> {
    let mut all: Vec<Fixed> = CALLS.iter().map(|call| Fixed::of(call.name, call.rounds())).collect();
    all.push(Fixed::of("price_batch of 1", measure(batches)));
    all
}

impl Call {
    fn rounds(&self) -> Rounds {
        let scene = self.stage.scene(half_full(WORDS));
        measure(|| self.sides.map(|side| side(&scene)).into())
    }
}

/// A batch has no head, so that both baselines are the same.
fn batches<'a>() -> Vec<Side<'a>> {
    vec![calls::price_batch::<Lent>(1), calls::price_batch::<Memory>(1), calls::price_batch::<LentWords>(1)]
}

impl Fixed {
    fn of(call: &'static str, rounds: Rounds) -> Fixed {
        Fixed { call, figure: Figure::of(&rounds), words: rounds.time(2), to_words: rounds.ratio(0, 2) }
    }
}

#[cfg(test)]
mod tests {
    use super::{batches, CALLS};
    use crate::results::half_full;

    /// A side tests its answer where it is made. No time is asserted.
    #[test]
    fn every_call_is_accepted() {
        for words in [4, 64, 128] {
            for call in &CALLS {
                let scene = call.stage.scene(half_full(words));
                call.sides.iter().for_each(|side| assert!(side(&scene)(100).is_finite()));
            }
        }
        batches().iter_mut().for_each(|side| assert!(side(100).is_finite()));
    }
}
