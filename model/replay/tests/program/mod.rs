//! The program, started and run.

use std::io::Write;
use std::process::{Child, Command, Output, Stdio};

pub fn started(arguments: &[&str]) -> Child {
    Command::new(env!("CARGO_BIN_EXE_replay"))
        .args(arguments)
        .stdin(Stdio::piped())
        .stdout(Stdio::piped())
        .stderr(Stdio::piped())
        .spawn()
        .expect("the program starts")
}

/// The status of the program for a script on standard input, and what it prints there and on standard error.
pub fn ran(arguments: &[&str], script: &[u8]) -> (i32, String, String) {
    let mut child = started(arguments);
    let mut stdin = child.stdin.take().expect("a pipe");
    // The program may end without reading, and what it prints for these scripts fits into a pipe.
    let _ = stdin.write_all(script);
    drop(stdin);
    let Output { status, stdout, stderr } = child.wait_with_output().expect("the program ends");
    let text = |bytes| String::from_utf8(bytes).expect("what is printed is ASCII");
    (status.code().expect("the program ends by itself"), text(stdout), text(stderr))
}
