//! `replay [--explain] [FILE..]`: runs scripts of calls, as docs/REPLAY.md defines them, on the proved unit and prints an answer
//! a line. `replay --sheet [FILE]` shows a sheet.
//!
//! Lines are read by the model's code. What they act on is memory of [`Library`]'s own, and what they print of answers, memory,
//! head and tally is what the static library said and left there.

mod explain;
mod phrases;
mod sheet;
mod shown;

use ffi::library::Library;
use model::program::{asked, checked, ended, input_of, misused, printed, run_scripts, Asked, Failure};
use model::script::{respond, BYTES};
use std::ffi::OsString;
use std::process::ExitCode;

const USAGE: &str = "usage: replay [--explain] [FILE..] | replay --sheet [FILE]";

const HELP: &str = "usage: replay [--explain] [FILE..] | replay --sheet [FILE]
Runs scripts of calls on the price unit, one FILE after another, and prints an answer a line; - or no FILE is standard
input. With --explain words, calls and refusals are printed as people say them. docs/REPLAY.md has the forms of a line.
With --sheet the FILE is a row sheet, and its state, rows, seats and prices are printed; no call is made.
Exit status: 0 if all went well, 1 if a line was no call or the FILE no sheet, 2 for wrong arguments, or if input cannot
be read or output cannot be written.
";

fn main() -> ExitCode {
    let arguments: Vec<OsString> = std::env::args_os().skip(1).collect();
    ended("replay", replay(&arguments))
}

fn replay(arguments: &[OsString]) -> Result<ExitCode, Failure> {
    let mut library = Library::default();
    match asked(arguments) {
        None => Ok(misused(USAGE)),
        Some(Asked { help: true, .. }) => printed(HELP.as_bytes()),
        Some(Asked { sheet: true, explain: false, names, .. }) if names.len() <= 1 => {
            show_sheet(names.first())
        }
        Some(Asked { sheet: true, .. }) => Ok(misused(USAGE)),
        Some(Asked { explain: true, names, .. }) => {
            run_scripts(&names, |line| explain::respond(&mut library, line))
        }
        Some(Asked { names, .. }) => run_scripts(&names, |line| respond(&mut library, line)),
    }
}

/// Prints a sheet, or that the bytes are none and what is wrong with them.
fn show_sheet(name: Option<&OsString>) -> Result<ExitCode, Failure> {
    let shown = sheet::text(&input_of(name, BYTES)?);
    let is_sheet = shown.is_ok();
    let text = shown.unwrap_or_else(|broken| format!("no sheet, refused 15: {broken}\n"));
    printed(text.as_bytes())?;
    Ok(checked(is_sheet))
}
