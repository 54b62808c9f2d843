//! The arguments and the exit status of `differential`.

use std::fs::OpenOptions;
use std::process::{Command, Output, Stdio};

fn differential(arguments: &[&str], stdout: Stdio) -> Output {
    let mut command = Command::new(env!("CARGO_BIN_EXE_differential"));
    command.args(arguments).stdin(Stdio::null()).stdout(stdout).stderr(Stdio::piped());
    command.spawn().and_then(|child| child.wait_with_output()).expect("the program runs")
}

#[test]
fn wrong_arguments_print_the_usage() {
    for arguments in [&[][..], &["1"], &["x", "100"], &["1", "-1"], &["1", "2", "3"], &["--fast"], &["", ""]]
    {
        let output = differential(arguments, Stdio::piped());
        assert_eq!(output.status.code(), Some(2), "{arguments:?}");
        assert!(output.stdout.is_empty() && output.stderr == b"usage: differential SEED CALLS\n");
    }
}

#[test]
fn help_and_a_run_without_a_difference_are_no_failure() {
    for (arguments, begins) in
        [(&["--help"][..], "usage: differential SEED CALLS\n"), (&["7", "0"], "seed 7: 0 calls, ")]
    {
        let output = differential(arguments, Stdio::piped());
        assert_eq!(output.status.code(), Some(0), "{arguments:?}");
        assert!(output.stderr.is_empty() && output.stdout.starts_with(begins.as_bytes()));
    }
}

#[test]
fn an_output_that_cannot_be_written_is_told() {
    for arguments in [&["--help"][..], &["7", "0"]] {
        let full = OpenOptions::new().write(true).open("/dev/full").expect("a device that is full");
        let output = differential(arguments, full.into());
        assert_eq!(output.status.code(), Some(2), "{arguments:?}");
        assert!(output.stderr.starts_with(b"differential: standard output: "));
    }
}
