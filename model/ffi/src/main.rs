//! `differential SEED CALLS`: the static library against the model on random calls, in scripts of a thousand calls each. At the
//! first difference it prints the script that shows it, and fails.

use ffi::differ::Pair;
use ffi::probe::probe;
use ffi::FOYERS;
use model::gen::{items, text, Item};
use model::program::{checked, ended, misused, printed, Failure};
use model::rng::Rng;
use model::script::{parse, Command, Line};
use std::ffi::OsString;
use std::process::ExitCode;
use std::time::Instant;

const USAGE: &str = "usage: differential SEED CALLS";

const HELP: &str = "usage: differential SEED CALLS
Makes random calls on the price unit's library and on the second model, in scripts of a thousand, until there are CALLS or
more, and compares answers and memory after each. A seed gives the same calls every time.
Exit status: 0 if there is no difference, 1 at the first one, which is printed as a script, 2 for wrong arguments or if
output cannot be written.
";

/// Calls in a script.
const SCRIPT: usize = 1000;
/// How many calls in a hundred are first made with a head that no script can have.
const PROBES: usize = 6;
/// How many in a hundred have another number for the foyer than its own.
const OTHER_NUMBERS: usize = 30;

#[derive(Default)]
struct Counts {
    calls: u64,
    damaged: u64,
    probes: u64,
}

fn main() -> ExitCode {
    let arguments: Vec<OsString> = std::env::args_os().skip(1).collect();
    ended("differential", answer(&arguments))
}

fn answer(arguments: &[OsString]) -> Result<ExitCode, Failure> {
    let words: Vec<&str> = arguments.iter().map(|word| word.to_str().unwrap_or_default()).collect();
    match words[..] {
        ["--help"] => printed(HELP.as_bytes()),
        [seed, calls] => match (seed.parse(), calls.parse()) {
            (Ok(seed), Ok(calls)) => compare(seed, calls),
            _ => Ok(misused(USAGE)),
        },
        _ => Ok(misused(USAGE)),
    }
}

/// Runs scripts until so many calls are made, and says what came of it.
fn compare(seed: u64, calls: u64) -> Result<ExitCode, Failure> {
    let start = Instant::now();
    let mut counts = Counts::default();
    let mut script = 0;
    while counts.calls + counts.probes < calls {
        if let Err(shown) = run(seed.wrapping_mul(1 << 32).wrapping_add(script), &mut counts) {
            printed(shown.as_bytes())?;
            return Ok(checked(false));
        }
        script += 1;
    }
    let Counts { calls, damaged, probes } = counts;
    let text = format!(
        "seed {seed}: {} calls, {} of them on damaged memory or heads, no difference in {:.0} s\n",
        calls + probes,
        damaged + probes,
        start.elapsed().as_secs_f64()
    );
    printed(text.as_bytes())
}

/// Runs a script on both, or gives the script up to the first difference, with that as its last comment.
fn run(seed: u64, counts: &mut Counts) -> Result<(), String> {
    let (items, _) = items(seed, SCRIPT);
    let mut rng = Rng::new(!seed);
    let mut pair = Pair::default();
    for (index, item) in items.iter().enumerate() {
        let foyer = if rng.percent(OTHER_NUMBERS) { rng.pick(&FOYERS) } else { FOYERS[0] };
        let shown = |difference: String| {
            let script = String::from_utf8_lossy(&text(&items[..=index])).into_owned();
            let title = format!("# script {seed}, to be replayed up to the first difference");
            format!("{title}\n{script}show all\n# {difference}; the foyer's number is {foyer}\n")
        };
        pair.library.foyer = foyer;
        let command = match item {
            Item::Command(command) => command.clone(),
            Item::Noise(line) => match parse(line) {
                Line::Command(command) => command,
                _ => continue,
            },
        };
        if let Command::Call(call) = &command {
            counts.calls += 1;
            counts.damaged += u64::from(!pair.model.store.is_sound());
            if rng.percent(PROBES) {
                counts.probes += 1;
                probe(&pair, call, &mut rng).map_err(shown)?;
            }
        }
        pair.step(&command).map_err(shown)?;
    }
    Ok(())
}
