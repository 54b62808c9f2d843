//! The crate against the C header: numbers, names and sentences of the refusals, constants, and the version.

mod common;

use cechnuol::Refusal;
use std::collections::BTreeMap;

/// The header without its comments.
fn code() -> String {
    let header = common::header();
    let parts = header.split("/*").map(|part| part.split_once("*/").map_or(part, |(_, code)| code));
    parts.collect::<Vec<&str>>().concat()
}

/// The names of an enum's body with their numbers, without prefix.
fn constants(body: &str) -> BTreeMap<String, u64> {
    let rows = body.split(',').filter_map(|row| row.split_once('='));
    let read = |(name, number): (&str, &str)| {
        let name = name.trim().strip_prefix("CECHNUOL_").expect("a name of the header").to_string();
        (name, number.trim().parse().expect("a number"))
    };
    rows.map(read).collect()
}

/// The bodies of the header's enums.
fn enums() -> Vec<BTreeMap<String, u64>> {
    let code = code();
    let bodies = code.split("enum {").skip(1);
    bodies.map(|body| constants(body.split('}').next().unwrap_or_default())).collect()
}

/// The answers: the enum that has OK.
fn answers() -> BTreeMap<String, u64> {
    enums().into_iter().find(|names| names.contains_key("OK")).expect("an enum of answers")
}

#[test]
fn refusals_have_the_numbers_and_names_of_the_header() {
    let ours = Refusal::ALL.map(|refusal| (refusal.name().to_string(), refusal.number()));
    let others = [("OK", cechnuol::raw::OK), ("NO_PRICE", cechnuol::raw::NO_PRICE)];
    let others = others.map(|(name, number)| (name.to_string(), number));
    assert_eq!(ours.into_iter().chain(others).collect::<BTreeMap<String, u64>>(), answers());
}

/// What a function of the header returns for each answer: `case CECHNUOL_NAME: return "TEXT";`.
fn returned(function: &str) -> Option<BTreeMap<String, String>> {
    let code = code();
    let (_, body) = code.split_once(&format!("{function}(uint64_t"))?;
    let (body, _) = body.split_once("\n}")?;
    let cases = body.split("case CECHNUOL_").skip(1);
    let read = |case: &str| {
        let name = case.split(':').next().unwrap_or_default();
        // Literals that follow each other are one text.
        let text: String = case.split(';').next().unwrap_or_default().split('"').skip(1).step_by(2).collect();
        (name.to_string(), text)
    };
    Some(cases.map(read).collect())
}

#[test]
fn refusals_say_what_the_header_says() {
    let names = returned("cechnuol_name").expect("names by cases");
    let texts = returned("cechnuol_text").expect("sentences by cases");
    for refusal in Refusal::ALL {
        assert_eq!(names.get(refusal.name()).map(String::as_str), Some(refusal.name()));
        assert_eq!(texts.get(refusal.name()), Some(&refusal.to_string()));
    }
}

#[test]
fn constants_are_those_of_the_header() {
    use cechnuol::raw::*;
    use cechnuol::*;
    let ours = [
        ("USED", USED),
        ("OLDEST", OLDEST),
        ("CHECKPOINT", CHECKPOINT),
        ("TIP", TIP),
        ("TAKEN", TAKEN),
        ("ISSUED", ISSUED),
        ("ENDS", ENDS),
        ("DEPTH", DEPTH),
        ("HEAD_WORDS", HEAD_WORDS),
        ("COMMITTED", COMMITTED),
        ("ROLLED_BACK", ROLLED_BACK),
        ("FLUSHED", FLUSHED),
        ("TALLY_WORDS", TALLY_WORDS),
        ("TABLE_WORDS", TABLE_WORDS),
        ("JOURNAL_WORDS", JOURNAL_WORDS),
        ("LIST_WORDS", LIST_WORDS),
        ("BATCH_ORDERS", BATCH_ORDERS),
        ("FOYER_WORDS", FOYER_WORDS),
        ("SLOTS", SLOTS),
        ("FOYER_SLOT", FOYER_SLOT),
        ("DESK", DESK as usize),
        ("FOYER", FOYER as usize),
        ("STEPS", STEPS),
        ("MOST_DEPTH", MOST_DEPTH as usize),
        ("IMAGE_BYTES", IMAGE_BYTES),
        ("SHEET_BYTES", SHEET_BYTES),
        ("LIST", Order::LIST.into()),
        ("WITHDRAW", Order::WITHDRAW.into()),
        ("RAISE", Order::RAISE.into()),
        ("CUT", Order::CUT.into()),
    ];
    let ours = BTreeMap::from(ours.map(|(name, number)| (name.to_string(), number as u64)));
    let answers = answers();
    let header = enums().into_iter().flatten().filter(|(name, _)| !answers.contains_key(name));
    header.for_each(|(name, number)| assert_eq!(ours.get(&name), Some(&number), "{name}"));
}

/// What the header defines a name as, by a macro.
fn defined(name: &str) -> String {
    let code = code();
    let mut lines =
        code.lines().filter_map(|line| line.strip_prefix("#define CECHNUOL_")?.strip_prefix(name));
    lines.find_map(|rest| rest.strip_prefix(' ')).expect("a macro of that name").to_string()
}

#[test]
fn one_version() {
    let text = env!("CARGO_PKG_VERSION");
    let parts: Vec<u64> = text.split('.').map(|part| part.parse().expect("a number")).collect();
    let number = parts.iter().fold(0, |sum, part| sum * 1000 + part);
    assert_eq!((cechnuol::VERSION, cechnuol::version(), parts.len()), (number, number, 3));
    assert_eq!(defined("VERSION"), number.to_string());
    assert_eq!(defined("VERSION_TEXT"), format!("{text:?}"));
}

/// What says that the table answered: a power of two, and the least number that no state has.
#[test]
fn the_word_for_the_table() {
    let text = defined("BY_TABLE");
    let power = text.strip_prefix("(UINT64_C(1) << ").and_then(|text| text.strip_suffix(')'));
    let power: u32 = power.and_then(|power| power.parse().ok()).expect("a power of two");
    assert_eq!(cechnuol::raw::BY_TABLE, 1 << power);
    assert_eq!(cechnuol::raw::BY_TABLE, u64::from(u32::MAX) + 1);
}

#[test]
fn what_is_unknown_is_kept() {
    for number in [0, 21, 99, 100, 101, 1 << 32, u64::MAX] {
        let refusal = Refusal::of_number(number);
        assert_eq!(
            (refusal, refusal.number(), refusal.name()),
            (Refusal::Unknown(number), number, "UNKNOWN")
        );
        assert_eq!(refusal.to_string(), format!("the number is no answer: {number}"));
    }
    for refusal in Refusal::ALL {
        assert_eq!(Refusal::check(refusal.number()), Err(refusal));
    }
    assert_eq!(Refusal::check(0), Ok(()));
}
