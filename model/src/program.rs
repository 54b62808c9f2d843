//! What the programs share: their arguments, standard input and output, scripts that are run, and how a program ends.

use crate::script::{run, Outcome, Reason, Stopped};
use crate::standard;
use std::ffi::{OsStr, OsString};
use std::fs::File;
use std::io::{self, BufReader, LineWriter, Read, Write};
use std::os::fd::{AsFd, BorrowedFd};
use std::os::unix::ffi::OsStrExt;
use std::process::ExitCode;

/// The status where a line was no call, or a check failed.
const FAILED: u8 = 1;
/// The status of wrong arguments, and of input that cannot be read and output that cannot be written.
const ERROR: u8 = 2;
/// The error of a descriptor that is not open.
const BAD_DESCRIPTOR: i32 = 9;
/// The error of a directory that is to be read.
const DIRECTORY: i32 = 21;

/// The name of standard input among files.
const STANDARD: &str = "-";

/// What is said of an input or output that failed: its name, and why.
#[derive(Debug)]
pub struct Failure(String);

impl Failure {
    /// What failed at a script, by the name that it was given by.
    fn script(name: &OsStr, error: io::Error) -> Failure {
        let name = if name == STANDARD { "standard input".into() } else { name.to_string_lossy() };
        Failure(format!("{name}: {error}"))
    }

    fn output(error: io::Error) -> Failure {
        Failure(format!("standard output: {error}"))
    }
}

/// The exit code of a program. What failed goes to standard error.
pub fn ended(program: &str, outcome: Result<ExitCode, Failure>) -> ExitCode {
    outcome.unwrap_or_else(|Failure(what)| {
        // Where standard error cannot be written either, the status alone tells.
        let _ = writeln!(io::stderr(), "{program}: {what}");
        ExitCode::from(ERROR)
    })
}

/// The exit code after a check.
pub fn checked(passes: bool) -> ExitCode {
    ExitCode::from(if passes { 0 } else { FAILED })
}

/// Prints the usage of a program that was given wrong arguments.
pub fn misused(usage: &str) -> ExitCode {
    let _ = writeln!(io::stderr(), "{usage}");
    ExitCode::from(ERROR)
}

/// Prints a text on standard output.
pub fn printed(text: &[u8]) -> Result<ExitCode, Failure> {
    let mut out = output()?;
    out.write_all(text).and_then(|()| out.flush()).map_err(Failure::output)?;
    Ok(ExitCode::SUCCESS)
}

/// Standard output, each line of it written when it ends. It is a file of its own, since [`io::stdout`] takes a descriptor that
/// cannot be written to for one that takes all.
fn output() -> Result<LineWriter<File>, Failure> {
    let file = own_file(standard::output_was_open(), io::stdout().as_fd());
    file.map(LineWriter::new).map_err(Failure::output)
}

/// The bytes of a file, or of standard input if none is named; what has more than so many is not read to its end.
pub fn input_of(name: Option<&OsString>, most: u64) -> Result<Vec<u8>, Failure> {
    let Script { name, input } = opened(name.unwrap_or(&STANDARD.into()))?;
    let mut bytes = Vec::new();
    let read = input.take(most + 1).read_to_end(&mut bytes);
    let read = read.and_then(|_| match bytes.len() as u64 <= most {
        true => Ok(()),
        false => Err(io::Error::other(format!("more than {most} bytes"))),
    });
    read.map_err(|error| Failure::script(&name, error))?;
    Ok(bytes)
}

/// All of standard input.
pub fn input() -> Result<Vec<u8>, Failure> {
    let mut bytes = Vec::new();
    let read = standard_input().and_then(|mut input| input.read_to_end(&mut bytes));
    read.map_err(|error| Failure::script(STANDARD.as_ref(), error))?;
    Ok(bytes)
}

/// Standard input, as a file for the same reason.
fn standard_input() -> io::Result<File> {
    own_file(standard::input_was_open(), io::stdin().as_fd())
}

fn own_file(was_open: bool, descriptor: BorrowedFd) -> io::Result<File> {
    if !was_open {
        return Err(io::Error::from_raw_os_error(BAD_DESCRIPTOR));
    }
    descriptor.try_clone_to_owned().map(File::from)
}

/// What a program that runs scripts is asked to do.
#[derive(Debug, Default, PartialEq, Eq)]
pub struct Asked {
    pub help: bool,
    pub explain: bool,
    pub sheet: bool,
    pub names: Vec<OsString>,
}

/// What the arguments ask for, or nothing if one of them is no option. Options may stand anywhere before `--`.
pub fn asked(arguments: &[OsString]) -> Option<Asked> {
    let end = arguments.iter().position(|argument| argument == "--").unwrap_or(arguments.len());
    let mut asked = Asked::default();
    for argument in &arguments[..end] {
        match argument.as_bytes() {
            b"--help" => asked.help = true,
            b"--explain" => asked.explain = true,
            b"--sheet" => asked.sheet = true,
            [b'-', _, ..] => return None,
            _ => asked.names.push(argument.clone()),
        }
    }
    asked.names.extend(arguments[end..].iter().skip(1).cloned());
    Some(asked)
}

/// A script to be run, and the name that it was given by.
struct Script {
    name: OsString,
    input: BufReader<File>,
}

/// Runs the scripts of these names one after another, or standard input if there is none. All are opened before the first runs.
pub fn run_scripts(
    names: &[OsString],
    mut respond: impl FnMut(&[u8]) -> Result<Vec<String>, Reason>,
) -> Result<ExitCode, Failure> {
    let mut out = output()?;
    let names = if names.is_empty() { &[STANDARD.into()] } else { names };
    let scripts = names.iter().map(opened).collect::<Result<Vec<Script>, Failure>>()?;
    let mut all_calls = true;
    for Script { name, mut input } in scripts {
        let title = if names.len() > 1 { [name.as_bytes(), b": "].concat() } else { Vec::new() };
        let outcome = run(&mut input, &title, &mut out, &mut respond).map_err(|stopped| match stopped {
            Stopped::Input(error) => Failure::script(&name, error),
            Stopped::Output(error) => Failure::output(error),
        })?;
        all_calls &= outcome == Outcome::AllCalls;
    }
    out.flush().map_err(Failure::output)?;
    Ok(checked(all_calls))
}

fn opened(name: &OsString) -> Result<Script, Failure> {
    let file = if name == STANDARD { standard_input() } else { readable(name) };
    let input = BufReader::new(file.map_err(|error| Failure::script(name, error))?);
    Ok(Script { name: name.clone(), input })
}

/// A file that can be read; a directory can be opened, but not read.
fn readable(name: &OsStr) -> io::Result<File> {
    let file = File::open(name)?;
    if file.metadata()?.is_dir() {
        return Err(io::Error::from_raw_os_error(DIRECTORY));
    }
    Ok(file)
}
