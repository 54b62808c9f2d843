//! Replay: the program on small scripts, and what it prints of answers and heads that document 01 does not know.

mod program;

use ffi::library::Library;
use ffi::said::{Said, UNTOUCHED};
use ffi::{BY_TABLE, NO_PRICE};
use model::script::respond;
use program::{ran, started};
use std::io::Write;
use std::process::Output;

/// What the program prints for a script that goes well.
fn printed(script: &[u8]) -> String {
    let (status, stdout, stderr) = ran(&[], script);
    assert_eq!((status, stderr.as_str()), (0, ""));
    stdout
}

/// Offer 5 stands at 1200 in the table when 5 and 9 are asked for, and the words that the library filled stay with the slot.
#[test]
fn a_forward_takes_what_the_issue_filled() {
    let script = b"lend table 4\nlend journal 20\nclear\ncommit 80000005000004B0\nflush 1\n\
        issue 3 0000000500000000 0000000900000000\ncommit 80000009000002BC\nforward 3 1\nforward 3 2\n\
        issue 3 0000000900000000\nforward 3 2\nissue 4 8000000900000000\nforward 4 2\nforward 8 2\n";
    let expected =
        "line 3: ok\nline 4: ok\nline 5: ok\nline 6: ok 80000005000004B0 0000000900000000\nline 7: ok\n\
        line 8: ok 80000005000004B0 0000000900000000\nline 9: refused 5 80000005000004B0 0000000900000000\n\
        line 10: ok 0000000900000000\nline 11: ok 80000009000002BC\nline 12: refused 6 8000000900000000\n\
        line 13: refused 5\nline 14: refused 3\n";
    assert_eq!(printed(script), expected);
}

/// The desk and the foyer read one store, each in its own slots.
#[test]
fn callers() {
    let script = b"lend table 4\nlend journal 20\nclear\nissue foyer 6 0000000500000000\n\
        issue desk 5 0000000500000000\ncommit 80000005000004B0\nforward 6 1\nforward foyer 5 1\nforward foyer 6 1\n\
        forward 5 1\nrelease foyer 6\nrelease 6\nlook_up foyer 5 1\nlook_up 5 1\n";
    let expected = "line 3: ok\nline 4: ok 0000000500000000\nline 5: ok 0000000500000000\nline 6: ok\n\
        line 7: refused 19 0000000500000000\nline 8: refused 19 0000000500000000\nline 9: ok 80000005000004B0\n\
        line 10: ok 80000005000004B0\nline 11: refused 5\nline 12: refused 19\nline 13: ok 1200 since 1\n\
        line 14: ok 1200 since 1\n";
    assert_eq!(printed(script), expected);
}

/// Each answer of a lookup: a price or none, since a state or by the table. A flush forgets the numbers up to the checkpoint.
#[test]
fn quotes() {
    let script = b"lend table 4\nlend journal 20\nclear\ncommit 80000005000004B0\nflush 1\ncommit 0000000500000000\n\
        commit 8000000900000000\nlook_up 5 1\nlook_up 5 2\nlook_up 9 2\nlook_up 9 3\nlook_up 5 3\nlook_up 5 4\n\
        flush 2\nlook_up 5 2\nlook_up 9 3\nlook_up 2147483648 3\n";
    let expected = "line 3: ok\nline 4: ok\nline 5: ok\nline 6: ok\nline 7: ok\nline 8: ok 1200 table\n\
        line 9: none since 2\nline 10: none table\nline 11: ok 0 since 3\nline 12: none since 2\nline 13: refused 11\n\
        line 14: ok\nline 15: none table\nline 16: ok 0 since 3\nline 17: refused 6\n";
    assert_eq!(printed(script), expected);
}

/// The image of each state, of one that the table has no room for too; a restart writes the checkpoint's.
#[test]
fn images() {
    let script = b"lend table 1\nlend journal 2\nclear\ncommit 80000005000004B0 80000009000002BC\nlend bytes 24\n\
        write_image\nshow bytes 0 24\nwrite_image 0\nshow bytes 0 8\nwrite_image 1\nwrite_image 2\nlend bytes 21\n\
        write_image\nwrite_image 1\nrestart\nshow bytes 0 6\nshow head\n";
    let expected = "line 3: ok\nline 4: ok\nline 6: ok 22\n\
        line 7: bytes from 0 00 00 00 01 00 02 80 00 00 05 00 00 04 B0 80 00 00 09 00 00 02 BC 00 00\nline 8: ok 6\n\
        line 9: bytes from 0 00 00 00 00 00 00 80 00\nline 10: ok 22\nline 11: refused 11\nline 13: refused 17\n\
        line 14: refused 17\nline 15: ok\nline 16: bytes from 0 00 00 00 00 00 00\n\
        line 17: head used 0 oldest 0 checkpoint 0 tip 0 depth 0 held 00000000 issued 0 0 0 0 0 0 0 0 ends\n";
    assert_eq!(printed(script), expected);
}

/// A depth that a store is given, keeps at a restart and is not flushed within.
#[test]
fn depths() {
    let script = b"lend table 1\nlend journal 2\nclear 64\nclear 1\ncommit 80000005000004B0\nflush 1\ncommit\nflush 1\n\
        lend bytes 14\nrestart\nshow head\nload 64\nload 63\nload_sheet 64\nload_sheet 63\nshow head\nhead depth 64\n\
        flush 1\nclear\nshow head\n";
    let expected = "line 3: refused 20\nline 4: ok\nline 5: ok\nline 6: refused 20\nline 7: ok\nline 8: ok\nline 10: ok\n\
        line 11: head used 1 oldest 1 checkpoint 1 tip 1 depth 1 held 00000000 issued 0 0 0 0 0 0 0 0 ends\n\
        line 12: refused 20\nline 13: ok\nline 14: refused 20\nline 15: refused 15\n\
        line 16: head used 1 oldest 1 checkpoint 1 tip 1 depth 63 held 00000000 issued 0 0 0 0 0 0 0 0 ends\n\
        line 18: refused 2\nline 19: ok\n\
        line 20: head used 0 oldest 0 checkpoint 0 tip 0 depth 0 held 00000000 issued 0 0 0 0 0 0 0 0 ends\n";
    assert_eq!(printed(script), expected);
}

/// The sheet of each state, of one that the table has no room for too, and loaded where there is room.
#[test]
fn sheets() {
    let script = b"lend table 1\nlend journal 2\nclear\ncommit 80000005000004B0 80000020000002BC\nlend bytes 34\n\
        write_sheet\nshow bytes 0 34\nwrite_sheet 0\nshow bytes 0 8\nwrite_sheet 1\nwrite_sheet 2\nlend bytes 31\n\
        write_sheet\nwrite_sheet 1\nlend bytes 32\nwrite_sheet\nload_sheet\nlend table 2\nload_sheet\nload\nshow head\n";
    let expected = "line 3: ok\nline 4: ok\nline 6: ok 32\n\
        line 7: bytes from 0 00 00 00 01 00 00 00 02 00 00 00 00 04 00 00 00 00 00 04 B0 00 00 00 40 80 00 00 00 00 00 02 BC \
        00 00\nline 8: ok 8\nline 9: bytes from 0 00 00 00 00 00 00 00 00\nline 10: ok 32\nline 11: refused 11\n\
        line 13: refused 17\nline 14: refused 17\nline 16: ok 32\nline 17: refused 16\nline 19: ok\nline 20: refused 15\n\
        line 21: head used 2 oldest 1 checkpoint 1 tip 1 depth 0 held 00000000 issued 0 0 0 0 0 0 0 0 ends\n";
    assert_eq!(printed(script), expected);
}

#[test]
fn lines_of_any_bytes() {
    assert_eq!(printed(b""), "");
    let bytes = "line 2: no call: unknown word '\\xFF\\x00'\nline 5: refused 1\n";
    assert_eq!(ran(&[], b"\n\xFF\0\n# x\n\nclear"), (1, bytes.to_string(), String::new()));
    let spaced = |length: usize| [vec![b' '; length - 5], b"clear\n".to_vec()].concat();
    let long = "line 1: refused 1\nline 2: no call: the line has more than 4096 bytes\n";
    assert_eq!(ran(&[], &[spaced(4096), spaced(4097)].concat()), (1, long.to_string(), String::new()));
}

/// The unit answered, so all went well.
#[test]
fn a_refused_call_goes_well() {
    assert_eq!(printed(b"clear\ncommit\n"), "line 1: refused 1\nline 2: refused 1\n");
}

#[test]
fn wrong_arguments() {
    let usage = "usage: replay [--explain] [FILE..] | replay --sheet [FILE]\n";
    let wrong = [&["--x"][..], &["-x"], &["-", "--explained"], &["--help", "-h"]];
    let sheets = [&["--sheet", "--explain"][..], &["--sheet", "-", "-"], &["--sheets"]];
    for arguments in wrong.into_iter().chain(sheets) {
        assert_eq!(ran(arguments, b""), (2, String::new(), usage.to_string()), "{arguments:?}");
    }
    let (status, stdout, stderr) = ran(&["--help"], b"");
    assert_eq!((status, stderr.as_str()), (0, ""));
    assert!(stdout.starts_with(usage), "{stdout}");
}

#[test]
fn scripts_that_cannot_be_read() {
    let directory = "replay: src: Is a directory (os error 21)\n";
    assert_eq!(ran(&["src"], b"clear\n"), (2, String::new(), directory.to_string()));
    // nothing is run of the scripts before it
    assert_eq!(ran(&["-", "src"], b"clear\n"), (2, String::new(), directory.to_string()));
    let missing = "replay: no such file: No such file or directory (os error 2)\n";
    assert_eq!(ran(&["-", "--", "no such file"], b""), (2, String::new(), missing.to_string()));
    assert_eq!(ran(&["--", "--help"], b"").0, 2);
}

/// Standard input named twice has nothing left the second time; a file of no bytes is a script.
#[test]
fn several_scripts_on_one_store() {
    let script = b"lend table 1\nlend journal 1\nclear\n";
    let expected = "-: line 3: ok\n".to_string();
    assert_eq!(ran(&["-", "/dev/null", "-"], script), (0, expected, String::new()));
}

/// What cannot be written is an error, if only a reader of a pipe has left.
#[test]
fn output_that_nobody_reads() {
    let mut child = started(&[]);
    drop(child.stdout.take());
    let mut stdin = child.stdin.take().expect("a pipe");
    // the program may have ended before all is written
    let _ = stdin.write_all(&b"show all\n".repeat(10_000));
    drop(stdin);
    let Output { status, stderr, .. } = child.wait_with_output().expect("the program ends");
    assert_eq!(status.code(), Some(2));
    assert_eq!(String::from_utf8_lossy(&stderr), "replay: standard output: Broken pipe (os error 32)\n");
}

/// What the library says is printed as the numbers that it gave, those too that no call may give.
#[test]
fn no_answer_is_hidden() {
    let said =
        |code, value, since, words: &[u64]| Said { code, value, since, words: words.to_vec() }.to_string();
    let text = |code, value, words: &[u64]| said(code, value, UNTOUCHED, words);
    assert_eq!(text(0, UNTOUCHED, &[]), "ok");
    assert_eq!(text(0, 1200, &[]), "ok 1200");
    assert_eq!(text(0, 1, &[5]), "ok 1 0000000000000005");
    assert_eq!(text(NO_PRICE, UNTOUCHED, &[]), "none");
    assert_eq!(text(17, UNTOUCHED, &[5]), "refused 17 0000000000000005");
    for code in [18, 19, 20, 99, 101, 1 << 32, u64::MAX] {
        assert_eq!(text(code, UNTOUCHED, &[]), format!("refused {code}"));
    }
    // a price of more than 32 bits, and values where there should be none
    assert_eq!(text(0, 1 << 32, &[]), "ok 4294967296");
    assert_eq!(text(NO_PRICE, 7, &[]), "none 7");
    assert_eq!(text(17, 7, &[]), "refused 17 7");
    // how fresh a price is, said as it may be, of a state that is none, and where it should not be said
    assert_eq!(said(0, 1200, 3, &[]), "ok 1200 since 3");
    assert_eq!(said(0, 1200, BY_TABLE, &[]), "ok 1200 table");
    assert_eq!(said(NO_PRICE, UNTOUCHED, 0xFFFF_FFFF, &[]), "none since 4294967295");
    assert_eq!(said(NO_PRICE, UNTOUCHED, BY_TABLE, &[]), "none table");
    assert_eq!(said(0, 1200, BY_TABLE + 3, &[]), "ok 1200 since 4294967299");
    assert_eq!(said(NO_PRICE, UNTOUCHED, u64::MAX, &[]), "none since 18446744073709551615");
    assert_eq!(said(0, UNTOUCHED, 3, &[]), "ok since 3");
    assert_eq!(said(11, UNTOUCHED, 3, &[]), "refused 11 since 3");
    assert_eq!(said(11, UNTOUCHED, BY_TABLE, &[]), "refused 11 table");
}

/// A word of the head that does not fit its field is shown as the number that it is.
#[test]
fn no_head_is_hidden() {
    let mut library = Library::default();
    library.lent.head[0] = u64::MAX;
    library.lent.head[1] = 1 << 32;
    library.lent.head[5] = 2;
    library.lent.head[11] = 256;
    library.lent.head[19] = (1 << 32) + 7;
    library.lent.head[21] = 3;
    library.lent.head[84] = (1 << 32) + 5;
    assert_eq!(
        respond(&mut library, b"show head").expect("a call"),
        [format!(
            "head used {} oldest 4294967296 checkpoint 0 tip 0 depth 4294967301 held 0200000256 \
             issued 0 0 0 0 0 0 0 4294967303 ends 0 3",
            u64::MAX
        )]
    );
}
