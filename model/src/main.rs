//! The model's commands. Each reads standard input, files or its arguments, and prints on standard output.

use model::program::{asked, checked, ended, input, misused, printed, run_scripts, Asked, Failure};
use model::script::respond;
use model::unit::Unit;
use model::{check, gen, listing};
use std::ffi::OsString;
use std::process::ExitCode;

const USAGE: &str = "usage: model run [FILE..] | generate SEED CALLS | listing | self-check SEED RUNS";

const HELP: &str = "usage:
model run [FILE..]                prints what replay must print for the scripts, or for standard input
model generate SEED CALLS         prints a random script
model listing < IMAGE             prints an image's listing
model self-check SEED RUNS        holds the unit to the plain list
";

fn main() -> ExitCode {
    let arguments: Vec<OsString> = std::env::args_os().skip(1).collect();
    ended("model", answer(&arguments))
}

fn answer(arguments: &[OsString]) -> Result<ExitCode, Failure> {
    let words: Vec<&str> = arguments.iter().map(|word| word.to_str().unwrap_or_default()).collect();
    match words[..] {
        ["--help"] => printed(HELP.as_bytes()),
        ["run", ..] => run(&arguments[1..]),
        ["listing"] => printed(listing::listing(&input()?).as_bytes()),
        ["generate", seed, calls] => match (seed.parse(), calls.parse()) {
            (Ok(seed), Ok(calls)) => printed(&gen::script(seed, calls).0),
            _ => Ok(misused(USAGE)),
        },
        ["self-check", seed, runs] => match (seed.parse(), runs.parse()) {
            (Ok(seed), Ok(runs)) => self_check(seed, runs),
            _ => Ok(misused(USAGE)),
        },
        _ => Ok(misused(USAGE)),
    }
}

fn run(arguments: &[OsString]) -> Result<ExitCode, Failure> {
    match asked(arguments) {
        Some(Asked { help: true, .. }) => printed(HELP.as_bytes()),
        Some(Asked { names, explain: false, sheet: false, .. }) => {
            let mut unit = Unit::default();
            run_scripts(&names, |line| respond(&mut unit, line))
        }
        _ => Ok(misused(USAGE)),
    }
}

fn self_check(seed: u64, runs: u64) -> Result<ExitCode, Failure> {
    let (text, passes) = match check::self_check(seed, runs) {
        Ok(report) => (report.to_string(), true),
        Err(difference) => (format!("difference: {difference}"), false),
    };
    printed(format!("{text}\n").as_bytes())?;
    Ok(checked(passes))
}
