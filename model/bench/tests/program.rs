//! The program's arguments and exit status. Nothing is measured here.

use std::process::{Command, Output, Stdio};

fn benchmarks(arguments: &[&str]) -> Output {
    Command::new(env!("CARGO_BIN_EXE_benchmarks")).args(arguments).stdin(Stdio::null()).output().unwrap()
}

#[test]
fn wrong_arguments_print_the_usage() {
    for arguments in [&[][..], &["one", "two"], &["--fast"], &[""], &["--help", "docs"]] {
        let output = benchmarks(arguments);
        assert_eq!(output.status.code(), Some(2), "{arguments:?}");
        assert!(output.stdout.is_empty() && output.stderr.starts_with(b"usage: benchmarks FOLDER"));
    }
}

#[test]
fn help_is_no_failure() {
    let output = benchmarks(&["--help"]);
    assert_eq!(output.status.code(), Some(0));
    assert!(output.stderr.is_empty() && output.stdout.starts_with(b"usage: benchmarks FOLDER"));
}

#[test]
fn a_folder_that_cannot_be_written_is_told_before_anything_is_measured() {
    for folder in ["/dev/null", "/dev/null/folder", "/proc/folder"] {
        let output = benchmarks(&[folder]);
        assert_eq!(output.status.code(), Some(2), "{folder}");
        let told = String::from_utf8(output.stderr).unwrap();
        assert!(told.starts_with(&format!("The folder {folder} cannot be written: ")), "{told}");
        assert_eq!(told.lines().count(), 1);
    }
}
