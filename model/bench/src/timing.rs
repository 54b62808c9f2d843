//! Calls timed side by side. A round makes its sides anew, in memory that lies elsewhere, and times batches of calls of each side in
//! turns, so that what else the machine does falls on all of them. The figure of a round is the median of its turns, and what is
//! told of a figure is the median of the rounds and the ends of their middle half.

use std::hint::black_box;
use std::time::{Duration, Instant};

/// Rounds of a measurement.
pub const ROUNDS: usize = 9;
/// How often each side has its turn in a round.
pub const TURNS: usize = 7;
/// How long a batch is to last.
const BATCH: Duration = Duration::from_micros(800);
/// The most calls of a batch.
const CALLS: usize = 1 << 16;
/// How many bytes further than in the round before the memory of a round lies at least.
const APART: usize = 2224;

/// The nanoseconds that so many calls take in all.
pub type Side<'a> = Box<dyn FnMut(usize) -> f64 + 'a>;

/// A side whose calls leave everything as it was: a batch is timed as a whole. The call is given its turn.
pub fn repeated<'a>(mut call: impl FnMut(usize) -> u64 + 'a) -> Side<'a> {
    Box::new(move |calls| {
        let start = Instant::now();
        for turn in 0..calls {
            black_box(call(turn));
        }
        nanoseconds(start.elapsed())
    })
}

/// A side whose calls change their memory: each call is timed by itself, what it changes is restored before it, and the time
/// that the clock takes is subtracted.
pub fn restored<'a, M: 'a>(
    mut memory: M,
    mut restore: impl FnMut(&mut M, usize) + 'a,
    mut call: impl FnMut(&mut M, usize) -> u64 + 'a,
) -> Side<'a> {
    let clock = clock();
    Box::new(move |calls| {
        let mut total = Duration::ZERO;
        for turn in 0..calls {
            restore(&mut memory, turn);
            let start = Instant::now();
            black_box(call(&mut memory, turn));
            total += start.elapsed();
        }
        nanoseconds(total) - clock * calls as f64
    })
}

/// The nanoseconds between two readings of the clock with nothing between them.
fn clock() -> f64 {
    let readings = (0..1001).map(|_| nanoseconds(Instant::now().elapsed()));
    median(readings.collect())
}

fn nanoseconds(duration: Duration) -> f64 {
    duration.as_nanos() as f64
}

/// A number of each round: their median, and the ends of their middle half, which leaves out the lowest and the highest quarter.
#[derive(Clone, Copy, Debug, PartialEq)]
pub struct Spread {
    pub low: f64,
    pub median: f64,
    pub high: f64,
}

impl Spread {
    pub fn of(mut rounds: Vec<f64>) -> Spread {
        rounds.sort_by(f64::total_cmp);
        let quarter = rounds.len() / 4;
        Spread {
            low: rounds[quarter],
            median: rounds[rounds.len() / 2],
            high: rounds[rounds.len() - 1 - quarter],
        }
    }
}

/// The nanoseconds of a call: by round, by side, and by turn.
pub struct Rounds(Vec<Vec<Vec<f64>>>);

/// Measures sides that are made anew for each round.
pub fn measure<'a>(sides: impl Fn() -> Vec<Side<'a>>) -> Rounds {
    let round = |round: usize| {
        let apart = black_box(vec![0u8; round * APART]);
        let times = timed(sides());
        drop(apart);
        times
    };
    Rounds((0..ROUNDS).map(round).collect())
}

/// The nanoseconds of a call of each side, turn by turn.
fn timed(mut sides: Vec<Side>) -> Vec<Vec<f64>> {
    let calls: Vec<usize> = sides.iter_mut().map(calls_of_a_batch).collect();
    let mut times = vec![Vec::with_capacity(TURNS); sides.len()];
    for place in 0..TURNS * sides.len() {
        let (turn, after) = (place / sides.len(), place % sides.len());
        let side = (turn + after) % sides.len();
        times[side].push(sides[side](calls[side]) / calls[side] as f64);
    }
    times
}

/// How many calls a batch of a side has. Finding out warms its memory.
fn calls_of_a_batch(side: &mut Side) -> usize {
    let mut calls = 4;
    loop {
        let taken = side(calls);
        if taken * 2.0 > nanoseconds(BATCH) || calls == CALLS {
            return calls;
        }
        calls *= 2;
    }
}

impl Rounds {
    /// The nanoseconds of a call of a side.
    pub fn time(&self, side: usize) -> Spread {
        Spread::of(self.0.iter().map(|sides| median(sides[side].clone())).collect())
    }

    /// How many times as long a call of one side takes as a call of another.
    pub fn ratio(&self, side: usize, other: usize) -> Spread {
        let of_turns = |sides: &Vec<Vec<f64>>| {
            median(sides[side].iter().zip(&sides[other]).map(|(one, other)| one / other).collect())
        };
        Spread::of(self.0.iter().map(of_turns).collect())
    }
}

/// The middle of some numbers.
fn median(mut numbers: Vec<f64>) -> f64 {
    numbers.sort_by(f64::total_cmp);
    numbers[numbers.len() / 2]
}

#[cfg(test)]
mod tests {
    use super::{measure, median, repeated, Rounds, Side, Spread, ROUNDS, TURNS};

    #[test]
    fn the_middle() {
        assert_eq!(median(vec![3.0, 1.0, 2.0]), 2.0);
        assert_eq!(median(vec![5.0]), 5.0);
    }

    #[test]
    fn the_middle_half() {
        let rounds = vec![9.0, 1.0, 8.0, 2.0, 7.0, 3.0, 6.0, 4.0, 5.0];
        assert_eq!(Spread::of(rounds), Spread { low: 3.0, median: 5.0, high: 7.0 });
        assert_eq!(Spread::of(vec![4.0]), Spread { low: 4.0, median: 4.0, high: 4.0 });
    }

    #[test]
    fn a_spread_is_that_of_the_rounds_and_not_of_the_turns() {
        let rounds = Rounds(vec![
            vec![vec![90.0, 2.0, 1.0], vec![30.0, 1.0, 1.0]],
            vec![vec![0.1, 5.0, 5.0], vec![0.1, 1.0, 5.0]],
            vec![vec![4.0, 4.0, 4.0], vec![1.0, 1.0, 1.0]],
        ]);
        assert_eq!(rounds.time(0), Spread { low: 2.0, median: 4.0, high: 5.0 });
        assert_eq!(rounds.ratio(0, 1), Spread { low: 1.0, median: 2.0, high: 4.0 });
    }

    #[test]
    fn each_side_has_all_its_turns() {
        let sides =
            || vec![repeated(|turn| turn as u64), Box::new(|calls: usize| 7.0 * calls as f64) as Side];
        let Rounds(rounds) = measure(sides);
        assert_eq!(rounds.len(), ROUNDS);
        for sides in &rounds {
            assert!(sides.iter().all(|turns| turns.len() == TURNS));
            assert!(sides[1].iter().all(|&time| time == 7.0));
        }
    }
}
