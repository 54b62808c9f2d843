//! Scripts: the stored ones, the format, and its edges.

mod common;

use common::{all_answers, files, run};
use model::format::Format;
use model::gen::{items, Item};
use model::rng::Rng;
use model::script::{next_line, parse, respond, Command, Line, Poke, LINE_BYTES};
use model::unit::{Call, Unit};
use std::collections::BTreeSet;
use std::io::BufReader;
use std::path::Path;

/// What a stored script's comments expect of its lines: line number and text.
fn expected(script: &[u8]) -> Vec<(usize, String)> {
    let text = String::from_utf8_lossy(script);
    let numbered = text.lines().enumerate();
    numbered
        .filter_map(|(index, line)| Some((index + 1, line.split_once("# -> ")?.1.trim().to_string())))
        .collect()
}

/// The scripts written by hand answer as their comments say.
#[test]
fn stored_scripts_answer_as_worked_out_by_hand() {
    let mut count = 0;
    for (file, script) in files("scripts", "script") {
        let printed = run(&script);
        let printed: BTreeSet<&str> = printed.lines().collect();
        for (number, text) in expected(&script) {
            let line = format!("line {number}: {text}");
            assert!(printed.contains(line.as_str()), "{}: not printed: {line}", file.display());
            count += 1;
        }
    }
    assert!(count > 1300, "{count} expectations");
}

/// What the scripts of a folder print, which must be the output stored beside each.
fn printed_as_stored(folder: &str) -> Vec<String> {
    let mut outputs = Vec::new();
    for (file, script) in files(folder, "script") {
        let stored = std::fs::read_to_string(file.with_extension("out")).expect("each script has its output");
        assert!(run(&script) == stored, "{} prints something else", file.display());
        outputs.push(stored);
    }
    outputs
}

/// The stored output is what the model prints today.
#[test]
fn stored_output_is_the_models() {
    assert!(printed_as_stored("scripts").len() >= 11);
}

/// The output of the lines that are no call, of the images, of the sheets, of the sixteenths, of since when and of depths comes
/// from the comments of their scripts and not from the model.
#[test]
fn outputs_that_are_worked_out_by_hand() {
    let names = [
        "no_calls.script",
        "images.script",
        "sheets.script",
        "sixteenths.script",
        "since.script",
        "depth.script",
    ];
    let by_hand = |file: &Path| names.iter().any(|name| file.ends_with(name));
    let scripts = files("scripts", "script").into_iter().filter(|(file, _)| by_hand(file));
    let mut count = 0;
    for (file, script) in scripts {
        let lines = expected(&script).into_iter().map(|(number, text)| format!("line {number}: {text}\n"));
        let stored = std::fs::read_to_string(file.with_extension("out")).expect("each script has its output");
        assert_eq!(stored, lines.collect::<String>(), "{}", file.display());
        count += 1;
    }
    assert_eq!(count, names.len());
}

/// The model answers the batch examples as tools/batch_examples.py works out from the papers.
#[test]
fn batch_examples_answer_as_worked_out() {
    let outputs = printed_as_stored("../tests/batches");
    assert_eq!(outputs.iter().map(|output| output.lines().count()).sum::<usize>(), 937);
}

/// The answers that a stored script's comments expect of calls, each after the call's form.
fn expected_answers(name: &str) -> BTreeSet<String> {
    let (_, script) = files("scripts", "script")
        .into_iter()
        .find(|(file, _)| file.ends_with(name))
        .expect("the script is stored");
    let text: Vec<&[u8]> = script.split(|&byte| byte == b'\n').collect();
    let answer_of = |(number, answer): (usize, String)| {
        let Line::Command(Command::Call(call)) = parse(text[number - 1]) else { return None };
        let words: Vec<&str> = answer.split(' ').collect();
        let kind = match (words[0], words.iter().find(|word| ["since", "table"].contains(word))) {
            ("refused", _) => words[..2].join(" "),
            (said, Some(since)) => format!("{said} {since}"),
            (said, None) => said.to_string(),
        };
        Some(format!("{} {kind}", call.form()))
    };
    expected(&script).into_iter().filter_map(answer_of).collect()
}

/// The scripts of refusals, of callers, of images, of sheets, of since when and of depths have every answer of every call among
/// what their comments expect, from the desk and from the foyer, with a state and without one.
#[test]
fn refusals_are_complete() {
    let names = ["refusals", "callers", "images", "sheets", "since", "depth"];
    let scripts = names.map(|name| format!("{name}.script"));
    let met: BTreeSet<String> = scripts.iter().flat_map(|name| expected_answers(name)).collect();
    let missing: Vec<String> = all_answers().into_iter().filter(|answer| !met.contains(answer)).collect();
    assert!(missing.is_empty(), "{missing:?}");
}

/// A line without a caller is the desk's, and is written so.
#[test]
fn the_desk_need_not_be_named() {
    let lines = ["look_up 5 0", "issue 6 0000000500000000", "forward 6 0", "forward 6 0 with", "release 7"];
    for line in lines {
        let (word, rest) = line.split_once(' ').expect("arguments follow the word");
        let by = |caller: &str| parse(format!("{word} {caller} {rest}").as_bytes());
        let written = |read: &Line| match read {
            Line::Command(command) => command.to_string(),
            other => panic!("{line}: {other:?}"),
        };
        assert_eq!(by("desk"), parse(line.as_bytes()));
        assert_ne!(by("foyer"), by("desk"));
        assert_eq!(written(&by("desk")), line);
        assert_eq!(written(&by("foyer")), format!("{word} foyer {rest}"));
    }
}

/// An image or a sheet need not name a state, and one that names the tip is another call.
#[test]
fn a_state_need_not_be_named() {
    let call = |format, state| Line::Command(Command::Call(Call::Write { format, state }));
    for format in [Format::Image, Format::Sheet] {
        let line = |rest: &str| parse(format!("write_{format}{rest}").as_bytes());
        assert_eq!(line(""), call(format, None));
        assert_eq!(line(" 0"), call(format, Some(0)));
        assert_eq!(line(" 4294967295"), call(format, Some(u32::MAX)));
        assert_ne!(call(format, None), call(format, Some(0)));
    }
    assert_ne!(parse(b"write_image"), parse(b"write_sheet"));
    assert_ne!(parse(b"load"), parse(b"load_sheet"));
}

/// A line that loads a file says whether it is an image or a sheet, and is written as it is read.
#[test]
fn the_format_of_a_file_is_named() {
    for (word, format) in [("load_file", Format::Image), ("load_sheet_file", Format::Sheet)] {
        for (rest, depth) in [("x", 0), ("x 1", 1), ("5 63", 63), ("5 4294967295", u32::MAX)] {
            let line = format!("{word} {rest}");
            let name = rest.split(' ').next().unwrap_or_default().as_bytes().to_vec();
            let command = Command::LoadFile { depth, format, name };
            assert_eq!(command.to_string(), line);
            assert_eq!(parse(line.as_bytes()), Line::Command(command));
        }
    }
}

/// A depth need not be named: none is 0, and is written so. Whether a store may have it shows when the call is made.
#[test]
fn a_depth_need_not_be_named() {
    let image = |depth| Call::Load { depth, format: Format::Image };
    let sheet = |depth| Call::Load { depth, format: Format::Sheet };
    let calls: [(&str, &dyn Fn(u32) -> Call); 3] =
        [("clear", &|depth| Call::Clear { depth }), ("load", &image), ("load_sheet", &sheet)];
    for (word, call) in calls {
        assert_eq!(call(0).to_string(), word);
        for line in [word.to_string(), format!("{word} 0"), format!("{word} 00000000000000000000")] {
            assert_eq!(parse(line.as_bytes()), Line::Command(Command::Call(call(0))), "{line}");
        }
        for depth in [1, 62, 63, 64, u32::MAX] {
            let line = format!("{word} {depth}");
            assert_eq!(call(depth).to_string(), line);
            assert_eq!(parse(line.as_bytes()), Line::Command(Command::Call(call(depth))));
        }
    }
}

#[test]
fn commands_are_read_as_they_are_written() {
    let mut count = 0;
    for seed in 0..40 {
        for item in items(seed, 100).0 {
            if let Item::Command(command) = item {
                assert_eq!(parse(command.to_string().as_bytes()), Line::Command(command));
                count += 1;
            }
        }
    }
    assert!(count > 4000);
}

/// Lines that are no call where table, journal and bytes are 4 long, and why: what docs/REPLAY.md's table of reasons says of
/// each, in its order.
const NO_CALLS: [(&[u8], &str); 117] = [
    (b"x", "unknown word 'x'"),
    (b"CLEAR", "unknown word 'CLEAR'"),
    (b"clear x", "expected DEPTH, a number from 0 to 4294967295, not 'x'"),
    (b"clear 4294967296", "expected DEPTH, a number from 0 to 4294967295, not '4294967296'"),
    (b"clear -1", "expected DEPTH, a number from 0 to 4294967295, not '-1'"),
    (b"clear 0 0", "too many arguments: clear DEPTH"),
    (b"clear depth 0", "too many arguments: clear DEPTH"),
    (b"clear\r\r", "unknown word 'clear\\x0D'"),
    (b"\rclear", "unknown word '\\x0Dclear'"),
    (b"\xC3\xA9", "unknown word '\\xC3\\xA9'"),
    (b"clear \xFF", "expected DEPTH, a number from 0 to 4294967295, not '\\xFF'"),
    (b"\0", "unknown word '\\x00'"),
    (b"\x0B", "unknown word '\\x0B'"),
    (b"\x1B[2J\\", "unknown word '\\x1B[2J\\x5C'"),
    (b"commit 800000050000001", "expected a word of 16 hexadecimal digits, not '800000050000001'"),
    (b"commit 80000005000000010", "expected a word of 16 hexadecimal digits, not '80000005000000010'"),
    (b"commit 8000000G00000001", "expected a word of 16 hexadecimal digits, not '8000000G00000001'"),
    (b"commit +000000500000001", "expected a word of 16 hexadecimal digits, not '+000000500000001'"),
    (
        b"commit 8000000500000001,8000000600000001",
        "expected a word of 16 hexadecimal digits, not '8000000500000001,8000000600000001'",
    ),
    (b"roll_back", "too few arguments: roll_back STATE"),
    (b"roll_back 4294967296", "expected STATE, a number from 0 to 4294967295, not '4294967296'"),
    (b"roll_back -1", "expected STATE, a number from 0 to 4294967295, not '-1'"),
    (b"roll_back +1", "expected STATE, a number from 0 to 4294967295, not '+1'"),
    (b"roll_back 1 1", "too many arguments: roll_back STATE"),
    (b"roll_back 0x1", "expected STATE, a number from 0 to 4294967295, not '0x1'"),
    (
        b"roll_back 000000000000000000001",
        "expected STATE, a number from 0 to 4294967295, not '000000000000000000001'",
    ),
    (b"flush one", "expected STATE, a number from 0 to 4294967295, not 'one'"),
    (b"write_image tip", "expected STATE, a number from 0 to 4294967295, not 'tip'"),
    (b"write_image 4294967296", "expected STATE, a number from 0 to 4294967295, not '4294967296'"),
    (b"write_image 0 14", "too many arguments: write_image STATE"),
    (b"write_image x y", "too many arguments: write_image STATE"),
    (b"write_sheet tip", "expected STATE, a number from 0 to 4294967295, not 'tip'"),
    (b"write_sheet 4294967296", "expected STATE, a number from 0 to 4294967295, not '4294967296'"),
    (b"write_sheet 0 14", "too many arguments: write_sheet STATE"),
    (b"load image", "expected DEPTH, a number from 0 to 4294967295, not 'image'"),
    (b"load 0 14", "too many arguments: load DEPTH"),
    (
        b"load_sheet 000000000000000000001",
        "expected DEPTH, a number from 0 to 4294967295, not '000000000000000000001'",
    ),
    (b"load_sheet 0 20", "too many arguments: load_sheet DEPTH"),
    (b"write_state_sheet 0", "unknown word 'write_state_sheet'"),
    (b"restart 0", "too many arguments: restart"),
    (b"look_up 4294967296 0", "expected OFFER, a number from 0 to 4294967295, not '4294967296'"),
    (b"look_up x y", "expected OFFER, a number from 0 to 4294967295, not 'x'"),
    (b"look_up 0", "too few arguments: look_up OFFER STATE"),
    (b"issue", "too few arguments: issue SLOT W.."),
    (
        b"issue 18446744073709551616",
        "expected SLOT, a number from 0 to 18446744073709551615, not '18446744073709551616'",
    ),
    (b"issue 0 5", "expected a word of 16 hexadecimal digits, not '5'"),
    (b"forward 0", "too few arguments: forward SLOT STATE"),
    (b"forward 0 1 8000000500000001", "expected with, not '8000000500000001'"),
    (b"forward 0 1 with 5", "expected a word of 16 hexadecimal digits, not '5'"),
    (b"forward x 1 With", "expected with, not 'With'"),
    (b"foyer issue 6", "unknown word 'foyer'"),
    (b"look_up foyer 0", "too few arguments: look_up foyer OFFER STATE"),
    (b"issue foyer", "too few arguments: issue foyer SLOT W.."),
    (b"issue hall 6", "expected SLOT, a number from 0 to 18446744073709551615, not 'hall'"),
    (b"issue desk desk", "expected SLOT, a number from 0 to 18446744073709551615, not 'desk'"),
    (b"forward desk 0", "too few arguments: forward desk SLOT STATE"),
    (b"forward foyer 6 1 foyer", "expected with, not 'foyer'"),
    (b"release foyer 6 7", "too many arguments: release foyer SLOT"),
    (b"commit foyer", "expected a word of 16 hexadecimal digits, not 'foyer'"),
    (b"release", "too few arguments: release SLOT"),
    (b"release 0 0", "too many arguments: release SLOT"),
    (b"price_batch", "too few arguments: price_batch W.. / W.. / W.."),
    (b"price_batch / /  /", "too many arguments: price_batch W.. / W.. / W.."),
    (b"price_batch //", "too few arguments: price_batch W.. / W.. / W.."),
    (b"lend", "expected table, journal or bytes, not the end of the line"),
    (b"lend words 5", "expected table, journal or bytes, not 'words'"),
    (b"lend table", "too few arguments: lend table N"),
    (b"lend table 8193", "expected N, a number from 0 to 8192, not '8193'"),
    (b"lend journal 4609", "expected N, a number from 0 to 4608, not '4609'"),
    (b"lend bytes 147457", "expected N, a number from 0 to 147456, not '147457'"),
    (b"lend table 4 4", "too many arguments: lend table N"),
    (b"poke table 4 8000000500000001", "past the end of the table, whose length is 4"),
    (b"poke table 3 8000000500000001 8000000600000001", "past the end of the table, whose length is 4"),
    (b"poke table 0", "too few arguments: poke table I W.."),
    (b"poke bytes", "too few arguments: poke bytes I B.."),
    (b"poke bytes 4 00", "past the end of the bytes, whose length is 4"),
    (b"poke bytes 0 000", "expected a byte of 2 hexadecimal digits, not '000'"),
    (b"poke journal 18446744073709551615 8000000500000001", "past the end of the journal, whose length is 4"),
    (b"fill table 1 4 0000000000000000 0000000000000000", "past the end of the table, whose length is 4"),
    (b"fill bytes 0 1 0000000000000000 0000000000000000", "past the end of the bytes, whose length is 4"),
    (
        b"fill bytes 0 2305843009213693952 0000000000000000 0000000000000000",
        "past the end of the bytes, whose length is 4",
    ),
    (b"fill journal 5 0 0000000000000000 0000000000000000", "past the end of the journal, whose length is 4"),
    (b"fill journal 5 0 0000000000000000", "too few arguments: fill journal I N W W"),
    (b"head", "expected used, oldest, checkpoint, tip, depth, held, issued or ends, not the end of the line"),
    (b"head floor 1", "expected used, oldest, checkpoint, tip, depth, held, issued or ends, not 'floor'"),
    (b"head depth", "too few arguments: head depth DEPTH"),
    (b"head depth 1 2", "too many arguments: head depth DEPTH"),
    (b"head depth 4294967296", "expected DEPTH, a number from 0 to 4294967295, not '4294967296'"),
    (b"head held 0 2", "expected N, a number from 0 to 1, not '2'"),
    (b"head held 8 2", "expected K, a number from 0 to 7, not '8'"),
    (b"head issued 0", "too few arguments: head issued K STATE"),
    (b"head ends 64 0", "expected K, a number from 0 to 63, not '64'"),
    (b"tally dropped 3", "expected committed, rolled_back or flushed, not 'dropped'"),
    (b"show", "expected head, tally, table, journal, bytes or all, not the end of the line"),
    (b"show head 1", "too many arguments: show head"),
    (b"show table 0", "too few arguments: show table I N"),
    (b"show table 0 5", "past the end of the table, whose length is 4"),
    (b"show table 5 81", "expected N, a number from 0 to 80, not '81'"),
    (b"load_file", "too few arguments: load_file NAME"),
    (b"load_file a b", "expected DEPTH, a number from 0 to 4294967295, not 'b'"),
    (b"load_file 5 no", "expected DEPTH, a number from 0 to 4294967295, not 'no'"),
    (b"load_file a 0 b", "too many arguments: load_file NAME DEPTH"),
    (b"load_file 5", "there is no file '5'"),
    (b"load_file 5 64", "there is no file '5'"),
    (b"load_file no/such/file", "there is no file 'no/such/file'"),
    (b"load_file .", "'.' is a directory"),
    (b"load_file /dev/zero", "the file '/dev/zero' cannot be read"),
    (b"load_file Cargo.toml/x", "the file 'Cargo.toml/x' cannot be read"),
    (b"load_file a\0b", "the file 'a\\x00b' cannot be read"),
    (b"load_sheet_file", "too few arguments: load_sheet_file NAME"),
    (b"load_sheet_file a b", "expected DEPTH, a number from 0 to 4294967295, not 'b'"),
    (b"load_sheet_file a 0 b", "too many arguments: load_sheet_file NAME DEPTH"),
    (b"load_sheet_file no/such/file", "there is no file 'no/such/file'"),
    (b"load_sheet_file .", "'.' is a directory"),
    (b"load_sheet_file /dev/zero", "the file '/dev/zero' cannot be read"),
    (b"load_sheet_file Cargo.toml/x", "the file 'Cargo.toml/x' cannot be read"),
    (b"load_image_file x", "unknown word 'load_image_file'"),
];

/// A unit with table, journal and bytes of 4, and offer 5 committed.
fn small_unit() -> Unit {
    let mut unit = Unit::default();
    let setup = ["lend table 4", "lend journal 4", "lend bytes 4", "clear", "commit 8000000500000001"];
    for line in setup {
        respond(&mut unit, line.as_bytes()).expect("a call");
    }
    unit
}

/// What a line prints, or why it is no call.
fn says(unit: &mut Unit, line: &[u8]) -> String {
    respond(unit, line).map_or_else(|reason| format!("no call: {reason}"), |texts| texts.join("; "))
}

#[test]
fn lines_that_are_no_call_say_why_and_change_nothing() {
    let mut unit = small_unit();
    let before = unit.clone();
    for (line, reason) in NO_CALLS {
        assert_eq!(
            says(&mut unit, line),
            format!("no call: {reason}"),
            "{:?}",
            String::from_utf8_lossy(line)
        );
        assert_eq!(unit, before);
    }
}

/// Of a long token a reason quotes 64 bytes, whatever they are.
#[test]
fn reasons_quote_no_more_than_they_need() {
    let mut unit = Unit::default();
    let quoted = |token: String| format!("no call: unknown word {token}");
    assert_eq!(says(&mut unit, &[b'x'; 64]), quoted(format!("'{}'", "x".repeat(64))));
    assert_eq!(says(&mut unit, &[b'x'; 65]), quoted(format!("'{}'..", "x".repeat(64))));
    assert_eq!(says(&mut unit, &[0xFF; LINE_BYTES]), quoted(format!("'{}'..", "\\xFF".repeat(64))));
}

#[test]
fn lines_that_are_calls_at_the_edge() {
    let mut unit = Unit::default();
    let mut says = |line: &[u8]| says(&mut unit, line);
    assert_eq!(says(b"lend table 8192"), "");
    assert_eq!(says(b"lend journal 00000000000000004608"), "");
    assert_eq!(says(b"lend bytes 147456"), "");
    assert_eq!(says(b"  lend   table 1  "), "");
    assert_eq!(says(b"\tlend \t table\t1\t\r"), "");
    assert_eq!(says(b"\r"), "");
    assert_eq!(says(b" \t\r"), "");
    assert_eq!(says(b"lend journal 1#comment"), "");
    assert_eq!(says(b"clear # \xFF\x00\t"), "ok");
    assert_eq!(says(b""), "");
    assert_eq!(says(b"    "), "");
    assert_eq!(says(b"#"), "");
    assert_eq!(says(b"commit 8000000abcdef123"), "ok");
    assert_eq!(says(b"show journal 0 1"), "journal from 0 8000000ABCDEF123");
    assert_eq!(says(b"show journal 1 0"), "journal from 1");
    assert_eq!(says(b"show journal 2 0"), "no call: past the end of the journal, whose length is 1");
    assert_eq!(says(b"fill table 1 0 0000000000000001 0000000000000001"), "");
    assert_eq!(says(b"lend bytes 0"), "");
    assert_eq!(says(b"show bytes"), "bytes 0 crc 00000000");
    assert_eq!(says(b"head ends 63 18446744073709551615"), "");
    assert_eq!(says(b"price_batch / /"), "ok 0");
    assert_eq!(says(b"forward 18446744073709551615 0"), "refused 2");
}

/// The bytes of a file are lent and loaded, and stay lent where the load is refused: as an image they are no sheet, and as a sheet
/// no image.
#[test]
fn files_are_loaded() {
    let mut unit = small_unit();
    let mut says = |line: &str| says(&mut unit, line.as_bytes());
    let head = |used, state, depth| {
        format!(
            "head used {used} oldest {state} checkpoint {state} tip {state} depth {depth} held 00000000 \
             issued 0 0 0 0 0 0 0 0 ends"
        )
    };
    assert_eq!(says("load_file ../tests/listing/paper.in"), "ok");
    assert_eq!(says("show head"), head(1, 7, 0));
    assert_eq!(says("load_sheet_file ../tests/sheets/two_rows.sheet 63"), "ok");
    assert_eq!(says("show head"), head(3, 8, 63));
    assert_eq!(says("load_file ../tests/listing/paper.in 5"), "ok");
    assert_eq!(says("show head"), head(1, 7, 5));
    assert_eq!(says("load_sheet_file ../tests/sheets/two_rows.sheet 64"), "refused 20");
    assert_eq!(says("show head"), head(1, 7, 5));
    assert_eq!(says("load_sheet 2"), "ok");
    assert_eq!(says("show head"), head(3, 8, 2));
    assert_eq!(says("look_up 31 8"), "ok 4 table");
    assert_eq!(says("load_file ../tests/sheets/two_rows.sheet"), "refused 15");
    assert_eq!(says("load_sheet"), "ok");
    assert_eq!(says("load_sheet_file ../tests/listing/paper.in"), "refused 15");
    assert_eq!(says("load_file ../tests/listing/paper.in 4294967295"), "refused 20");
    assert_eq!(says("load"), "ok");
    assert_eq!(says("lend table 2"), "");
    assert_eq!(says("load_sheet_file ../tests/sheets/two_rows.sheet"), "refused 16");
    assert_eq!(says("show bytes 0 4"), "bytes from 0 00 00 00 08");
    assert_eq!(says("show head"), head(1, 7, 0));
}

#[test]
fn long_lines_and_lists() {
    let mut unit = Unit::default();
    let mut says = |line: String| says(&mut unit, line.as_bytes());
    let words = |count: usize| " 8000000500000001".repeat(count);
    let batch = |count: usize| format!("price_batch{0} /{0} /{0}", words(count));
    assert_eq!(batch(80).len(), 4095);
    assert!(says(batch(80)).starts_with("refused 6 8000000500000001"));
    assert_eq!(says(format!("commit{}", words(80))), "refused 1");
    assert_eq!(says(format!("commit{}", words(81))), "no call: expected at most 80 words, not 81");
    assert_eq!(
        says(format!("poke bytes 0{}", " 00".repeat(81))),
        "no call: expected at most 80 bytes, not 81"
    );
    let long = "no call: the line has more than 4096 bytes";
    let spaced = |length: usize| format!("{}clear", " ".repeat(length - 5));
    assert_eq!(says(spaced(LINE_BYTES)), "refused 1");
    assert_eq!(says(spaced(LINE_BYTES) + "\r"), "refused 1");
    assert_eq!(says(spaced(LINE_BYTES + 1)), long);
    assert_eq!(says(spaced(LINE_BYTES) + "\r\r"), long);
    assert_eq!(says(format!("#{}", "x".repeat(LINE_BYTES))), long);
}

#[test]
fn lines_are_counted() {
    assert_eq!(run(b""), "");
    assert_eq!(run(b"\n"), "");
    assert_eq!(run(b"x"), "line 1: no call: unknown word 'x'\n");
    assert_eq!(run(b"\n# x\nx\n\nclear"), "line 3: no call: unknown word 'x'\nline 5: refused 1\n");
    assert_eq!(run(b"\r\n\r\nclear\r\n"), "line 3: refused 1\n");
}

/// A line is read the same in pieces of any size, and a long one only as far as shows that it is too long.
#[test]
fn lines_are_read_in_pieces() {
    let long = vec![b'x'; 100_000];
    let script = [b"one\r\n\n".as_slice(), &long, b"\nlast"].concat();
    let expected: [&[u8]; 4] = [b"one\r", b"", &long[..LINE_BYTES + 2], b"last"];
    for size in [1, 2, 3, 4097, 100_010] {
        let mut input = BufReader::with_capacity(size, script.as_slice());
        let mut line = Vec::new();
        for expected in expected {
            assert!(next_line(&mut input, &mut line).expect("memory can be read"));
            assert_eq!(line, expected);
        }
        assert!(!next_line(&mut input, &mut line).expect("memory can be read"));
    }
}

#[test]
fn a_forward_takes_what_the_issue_filled() {
    let script = b"lend table 2\nlend journal 9\nclear\ncommit 8000000500000001\nissue 0 0000000500000000\n\
        forward 0 1\nforward 0 1\nissue 0 0000000600000000\nrelease 0\nissue 0 0000000000000001\nforward 0 1\n\
        forward 1 1\nforward 8 1\n";
    let expected = "line 3: ok\nline 4: ok\nline 5: ok 0000000500000000\nline 6: ok 8000000500000001\n\
        line 7: refused 5 0000000500000000\nline 8: ok 0000000600000000\nline 9: ok\n\
        line 10: refused 6 0000000000000001\nline 11: refused 5 0000000600000000\nline 12: refused 5\n\
        line 13: refused 3\n";
    assert_eq!(run(script), expected);
}

/// What random scripts are made of.
const PIECES: [&[u8]; 31] = [
    b"lend ",
    b"table ",
    b"journal ",
    b"bytes ",
    b"poke ",
    b"fill ",
    b"head ",
    b"held ",
    b"depth ",
    b"ends ",
    b"tally ",
    b"show ",
    b"all ",
    b"clear ",
    b"load ",
    b"write_image ",
    b"load_sheet ",
    b"write_sheet ",
    b"commit ",
    b"forward ",
    b"issue ",
    b"with ",
    b"desk ",
    b"foyer ",
    b"price_batch ",
    b"/ ",
    b"8000000500000001 ",
    b"7 ",
    b"64 ",
    b"18446744073709551615 ",
    b"\n",
];

#[test]
fn random_bytes_do_no_harm() {
    let mut rng = Rng::new(7);
    for _ in 0..3000 {
        let mut script = Vec::new();
        for _ in 0..rng.below(60) {
            match rng.below(12) {
                0 => script.push(rng.bits() as u8),
                _ => script.extend(PIECES[rng.below(PIECES.len())]),
            }
        }
        run(&script);
    }
}

#[test]
fn pokes_say_all_memories() {
    let poke = |line: &[u8]| match parse(line) {
        Line::Command(Command::Poke { at, poke }) => Some((at, poke)),
        _ => None,
    };
    assert_eq!(poke(b"poke table 1 0000000000000002"), Some((1, Poke::Table(vec![2]))));
    assert_eq!(poke(b"poke journal 1 0000000000000002"), Some((1, Poke::Journal(vec![2]))));
    assert_eq!(poke(b"poke bytes 1 02 fF"), Some((1, Poke::Bytes(vec![2, 255]))));
    let call = |line: &[u8]| matches!(parse(line), Line::Command(Command::Call(Call::Forward { .. })));
    assert!(call(b"forward 0 0 with") && call(b"forward 0 0"));
}
