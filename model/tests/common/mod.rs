//! What several tests need.
#![allow(dead_code)]

use model::script;
use model::unit::Unit;
use std::fs;
use std::path::PathBuf;

/// Every answer of a lookup, whoever makes it: a price or none, since a state or by the table, and the grounds.
const LOOKUP_ANSWERS: [&str; 8] =
    ["ok since", "ok table", "none since", "none table", "refused 1", "refused 2", "refused 6", "refused 11"];

/// Every answer that each form of a call can give, without values, as the grounds concern it. What follows the call's word says
/// that the foyer makes it, or that the state to be written is named.
pub const ANSWERS: [(&str, &[&str]); 20] = [
    ("clear", &["ok", "refused 1", "refused 20"]),
    ("load", &["ok", "refused 1", "refused 20", "refused 15", "refused 16"]),
    ("load_sheet", &["ok", "refused 1", "refused 20", "refused 15", "refused 16"]),
    ("write_image", &["ok", "refused 1", "refused 2", "refused 17"]),
    ("write_image STATE", &["ok", "refused 1", "refused 2", "refused 11", "refused 17"]),
    ("write_sheet", &["ok", "refused 1", "refused 2", "refused 17"]),
    ("write_sheet STATE", &["ok", "refused 1", "refused 2", "refused 11", "refused 17"]),
    ("restart", &["ok", "refused 1", "refused 2", "refused 17"]),
    ("commit", &["ok", "refused 1", "refused 2", "refused 6", "refused 12", "refused 13", "refused 14"]),
    ("roll_back", &["ok", "refused 1", "refused 2", "refused 11"]),
    ("flush", &["ok", "refused 1", "refused 2", "refused 11", "refused 20", "refused 16"]),
    ("look_up", &LOOKUP_ANSWERS),
    ("look_up foyer", &LOOKUP_ANSWERS),
    ("issue", &["ok", "refused 1", "refused 2", "refused 3", "refused 19", "refused 4", "refused 6"]),
    (
        "issue foyer",
        &["ok", "refused 1", "refused 2", "refused 3", "refused 19", "refused 4", "refused 6", "refused 18"],
    ),
    (
        "forward",
        &["ok", "refused 1", "refused 2", "refused 3", "refused 19", "refused 5", "refused 6", "refused 11"],
    ),
    (
        "forward foyer",
        &[
            "ok",
            "refused 1",
            "refused 2",
            "refused 3",
            "refused 19",
            "refused 5",
            "refused 6",
            "refused 18",
            "refused 11",
        ],
    ),
    ("release", &["ok", "refused 1", "refused 2", "refused 3", "refused 19", "refused 5"]),
    ("release foyer", &["ok", "refused 1", "refused 2", "refused 3", "refused 19", "refused 5"]),
    ("price_batch", &["ok", "refused 6", "refused 7", "refused 8", "refused 9", "refused 10", "refused 17"]),
];

/// All of [`ANSWERS`] in the form `commit refused 13`.
pub fn all_answers() -> Vec<String> {
    let of_call = |&(call, answers): &(&str, &'static [&'static str])| {
        let call = call.to_string();
        answers.iter().map(move |answer| format!("{call} {answer}"))
    };
    ANSWERS.iter().flat_map(of_call).collect()
}

/// The numbers of the refusals among a call's answers.
pub fn refusals(answers: &[&str]) -> Vec<u8> {
    let number = |answer: &&str| answer.strip_prefix("refused ").and_then(|number| number.parse().ok());
    answers.iter().filter_map(number).collect()
}

/// A file or folder of this crate.
pub fn path(name: &str) -> PathBuf {
    PathBuf::from(env!("CARGO_MANIFEST_DIR")).join(name)
}

/// The files of a folder with an ending, and what they hold.
pub fn files(folder: &str, ending: &str) -> Vec<(PathBuf, Vec<u8>)> {
    let mut found = Vec::new();
    for entry in fs::read_dir(path(folder)).expect("the folder is part of the repository") {
        let file = entry.expect("the folder can be read").path();
        if file.extension().is_some_and(|extension| extension == ending) {
            let bytes = fs::read(&file).expect("the file can be read");
            found.push((file, bytes));
        }
    }
    found.sort();
    found
}

/// What a script prints.
pub fn run(script: &[u8]) -> String {
    let mut out = Vec::new();
    let mut unit = Unit::default();
    script::run(&mut &script[..], b"", &mut out, |line| script::respond(&mut unit, line))
        .expect("reading and writing memory does not fail");
    String::from_utf8(out).expect("what is printed is ASCII")
}
