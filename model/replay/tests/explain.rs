//! What replay prints with `--explain`, worked out by hand from docs/REPLAY.md.

mod program;

use program::ran;
use std::collections::BTreeSet;

/// Holds what a script prints to the texts that stand after `-> ` in its comments, one for each line that prints one.
fn explains(script: &str) {
    let mut expected = String::new();
    for (index, line) in script.lines().enumerate() {
        let (_, text) = line.split_once("# -> ").expect("each line says what it prints");
        expected += &format!("line {}: {text}\n", index + 1);
    }
    let (_, printed, error) = ran(&["--explain"], script.as_bytes());
    assert_eq!((printed, error), (expected, String::new()));
}

#[test]
fn calls_and_answers() {
    explains(
        "lend table 2 # -> lend table 2
lend journal 5 # -> lend journal 5
clear # -> clear: ok
commit 80000005000004B0 0000000900000000 # -> commit offer 5 price 1200, offer 9 none: ok
look_up 5 1 # -> look up offer 5 at state 1: price 1200, since state 1
look_up 9 1 # -> look up offer 9 at state 1: none, since state 1
look_up 9 0 # -> look up offer 9 at state 0: none, by the table
look_up 5 2 # -> look up offer 5 at state 2: refused 11 STATE_RANGE: the state is below the checkpoint or above the tip
flush 1 # -> flush to state 1: ok
look_up 5 1 # -> look up offer 5 at state 1: price 1200, by the table
look_up 9 1 # -> look up offer 9 at state 1: none, by the table
issue 3 0000000500000000 0000000900000000 # -> issue slot 3 for offer 5, offer 9: ok: offer 5 price 1200, offer 9 none
issue 3 0000000500000000 # -> issue slot 3 for offer 5: refused 4 SLOT_TAKEN: the slot named for an issue is open
issue 4 # -> issue slot 4 for nothing: ok: nothing
commit # -> commit nothing: ok
commit 80000009000002BC # -> commit offer 9 price 700: ok
forward 3 3 # -> forward slot 3 to state 3: ok: offer 5 price 1200, offer 9 price 700
forward 4 2 with 0000000700000000 # -> forward slot 4 to state 2 with offer 7 none: ok: offer 7 none
release 4 # -> release slot 4: refused 5 SLOT_CLOSED: the slot named for a forward or release is closed
roll_back 2 # -> roll back to state 2: ok
lend bytes 14 # -> lend bytes 14
write_image # -> write the image of the tip: ok, 14 bytes
load # -> load an image of 14 bytes: ok
restart # -> restart: ok
",
    );
}

#[test]
fn sheets() {
    explains(
        "lend table 1 # -> lend table 1
lend journal 2 # -> lend journal 2
clear # -> clear: ok
commit 80000005000004B0 80000020000002BC # -> commit offer 5 price 1200, offer 32 price 700: ok
lend bytes 31 # -> lend bytes 31
write_sheet # -> write the sheet of the tip: refused 17 OUTPUT_SHORT: the output is shorter than what is to be written
write_sheet 0 # -> write the sheet of state 0: ok, 8 bytes
write_sheet 2 # -> write the sheet of state 2: refused 11 STATE_RANGE: the state is below the checkpoint or above the tip
load_sheet # -> load a sheet of 31 bytes: refused 15 BAD_IMAGE: the length, the order or a bit of the image or sheet is wrong
lend bytes 32 # -> lend bytes 32
write_sheet 1 # -> write the sheet of state 1: ok, 32 bytes
load_sheet # -> load a sheet of 32 bytes: refused 16 TABLE_FULL: the state has more prices than the table has words
lend table 2 # -> lend table 2
load_sheet # -> load a sheet of 32 bytes: ok
look_up 32 1 # -> look up offer 32 at state 1: price 700, by the table
",
    );
}

#[test]
fn images() {
    explains(
        "lend table 1 # -> lend table 1
lend journal 2 # -> lend journal 2
clear # -> clear: ok
commit 80000005000004B0 80000009000002BC # -> commit offer 5 price 1200, offer 9 price 700: ok
lend bytes 21 # -> lend bytes 21
write_image # -> write the image of the tip: refused 17 OUTPUT_SHORT: the output is shorter than what is to be written
write_image 0 # -> write the image of state 0: ok, 6 bytes
write_image 1 # -> write the image of state 1: refused 17 OUTPUT_SHORT: the output is shorter than what is to be written
write_image 2 # -> write the image of state 2: refused 11 STATE_RANGE: the state is below the checkpoint or above the tip
write_image 1 2 # -> no call: too many arguments: write_image STATE
lend bytes 22 # -> lend bytes 22
write_image 1 # -> write the image of state 1: ok, 22 bytes
load # -> load an image of 22 bytes: refused 16 TABLE_FULL: the state has more prices than the table has words
",
    );
}

#[test]
fn callers() {
    let words: String = (0..17).map(|offer| format!(" {offer:08X}00000000")).collect();
    let offers: Vec<String> = (0..17).map(|offer| format!("offer {offer}")).collect();
    explains(&format!(
        "lend table 2 # -> lend table 2
lend journal 5 # -> lend journal 5
clear # -> clear: ok
commit 80000005000004B0 # -> commit offer 5 price 1200: ok
look_up foyer 5 1 # -> foyer: look up offer 5 at state 1: price 1200, since state 1
look_up desk 5 1 # -> look up offer 5 at state 1: price 1200, since state 1
look_up foyer 9 1 # -> foyer: look up offer 9 at state 1: none, by the table
issue foyer 6 0000000500000000 # -> foyer: issue slot 6 for offer 5: ok: offer 5 none
issue foyer 5 # -> foyer: issue slot 5 for nothing: refused 19 OTHERS_SLOT: the slot is not the caller's
issue foyer 7{words} # -> foyer: issue slot 7 for {}: refused 18 LONG_LIST: the foyer's list has over 16 words
release 6 # -> release slot 6: refused 19 OTHERS_SLOT: the slot is not the caller's
forward desk 6 1 # -> forward slot 6 to state 1: refused 19 OTHERS_SLOT: the slot is not the caller's
forward foyer 6 1 # -> foyer: forward slot 6 to state 1: ok: offer 5 price 1200
issue foyer 7 # -> foyer: issue slot 7 for nothing: ok: nothing
forward foyer 7 1 with 0000000700000000 # -> foyer: forward slot 7 to state 1 with offer 7 none: ok: offer 7 none
release foyer 7 # -> foyer: release slot 7: refused 5 SLOT_CLOSED: the slot named for a forward or release is closed
foyer # -> no call: unknown word 'foyer'
",
        offers.join(", ")
    ));
}

#[test]
fn orders() {
    explains(
        "price_batch 80000005000004B0 / 0200003200000005 / 0000000000000000 # -> \
price orders (raise offer 5 by 100) on (offer 5 price 1200) into 1 word: ok: offer 5 price 1300
price_batch 80000005000004B0 / 0300025800000005 0100000000000005 / 0000000000000001 0000000000000002 # -> \
price orders (cut offer 5 by 1200, withdraw offer 5) on (offer 5 price 1200) into 2 words: ok: offer 5 none
price_batch 80000001000003E9 / 1B00000000000001 1B00019000000001 / 0000000000000000 # -> \
price orders (keep 12/16 of offer 1, keep 12/16 of offer 1 but at least 800) on (offer 1 price 1001) into 1 word: \
ok: offer 1 price 800
price_batch / 00FFFFFFFFFFFFFF / # -> \
price orders (list offer 2147483647 at 33554431) on (nothing) into 0 words: \
refused 8 OFFER_NOT_READ: the offer of an order is not in the read set
price_batch / 0100000080000000 FF00000000000000 0400000000000005 / # -> \
price orders (no order 0100000080000000, no order FF00000000000000, no order 0400000000000005) on (nothing) into 0 words: \
refused 7 BAD_ORDER: the kind of an order is unknown, or a withdrawal has an amount
price_batch / / # -> price orders (nothing) on (nothing) into 0 words: ok: nothing
",
    );
}

#[test]
fn what_is_shown() {
    explains(
        "lend table 3 # -> lend table 3
lend journal 3 # -> lend journal 3
clear # -> clear: ok
show head # -> head: 0 words of the table used; oldest 0, checkpoint 0, tip 0, depth 0; no step held; all slots closed
commit 80000005000004B0 # -> commit offer 5 price 1200: ok
flush 1 # -> flush to state 1: ok
issue 2 # -> issue slot 2 for nothing: ok: nothing
commit 0000000000000000 # -> commit offer 0 none: ok
commit # -> commit nothing: ok
show head # -> head: 1 word of the table used; oldest 1, checkpoint 1, tip 3, depth 0; 2 steps held, marks 1, 1; slot 2 open since state 1
show tally # -> tally: 3 steps committed, 0 rolled back, 1 flushed
show table 0 3 # -> table from 0: offer 5 price 1200, unused, unused
show journal 0 2 # -> journal from 0: offer 0 none, unused
show journal 3 0 # -> journal from 3: nothing
show table 2 2 # -> no call: past the end of the table, whose length is 3
show bytes # -> bytes: 0 bytes, CRC-32 00000000
lend bytes 3 # -> lend bytes 3
poke bytes 1 0a fF # -> poke bytes 1 0A FF
show bytes 0 3 # -> bytes from 0: 00 0A FF
poke table 1 0000000000000007 8000000000000000 # -> poke table 1: no entry 0000000000000007, offer 0 price 0
head tip 0 # -> head tip 0
head ends 2 9 # -> head ends 2 9
head held 2 0 # -> head held 2 0
show head # -> head: 1 word of the table used; oldest 1, checkpoint 1, tip 0, depth 0; no step held, mark 0 is 1, mark 1 is 1, mark 2 is 9; slot 2 closed with number 1
look_up 5 1 # -> look up offer 5 at state 1: refused 2 UNSOUND: the store is not sound
",
    );
}

#[test]
fn depths() {
    explains(
        "lend table 1 # -> lend table 1
lend journal 4 # -> lend journal 4
clear 64 # -> clear with depth 64: refused 20 TOO_DEEP: the depth is above 63, or the flush goes higher than tip - depth
clear 0 # -> clear: ok
clear 2 # -> clear with depth 2: ok
show head # -> head: 0 words of the table used; oldest 0, checkpoint 0, tip 0, depth 2; no step held; all slots closed
commit 80000005000004B0 # -> commit offer 5 price 1200: ok
show journal 0 2 # -> journal from 0: offer 5 price 1200, unused
flush 1 # -> flush to state 1: refused 20 TOO_DEEP: the depth is above 63, or the flush goes higher than tip - depth
flush 0 # -> flush to state 0: ok
head depth 64 # -> head depth 64
flush 0 # -> flush to state 0: refused 2 UNSOUND: the store is not sound
lend bytes 6 # -> lend bytes 6
load 63 # -> load an image of 6 bytes with depth 63: ok
load_sheet 1 # -> load a sheet of 6 bytes with depth 1: refused 15 BAD_IMAGE: \
the length, the order or a bit of the image or sheet is wrong
load_file ../../tests/listing/paper.in 5 # -> load the file '../../tests/listing/paper.in' with depth 5, 14 bytes: ok
show head # -> head: 1 word of the table used; oldest 7, checkpoint 7, tip 7, depth 5; no step held; all slots closed
load_file ../../tests/listing/paper.in 5 5 # -> no call: too many arguments: load_file NAME DEPTH
",
    );
}

#[test]
fn files() {
    explains(
        "lend table 1 # -> lend table 1
lend journal 1 # -> lend journal 1
load_file ../../tests/listing/paper.in # -> load the file '../../tests/listing/paper.in', 14 bytes: ok
look_up 5 7 # -> look up offer 5 at state 7: price 1200, by the table
load_file tests # -> no call: 'tests' is a directory
load_file ../../tests/listing/no_input.in # -> \
load the file '../../tests/listing/no_input.in', 0 bytes: refused 15 BAD_IMAGE: \
the length, the order or a bit of the image or sheet is wrong
load_sheet_file ../../tests/sheets/two_rows.sheet # -> \
load the sheet file '../../tests/sheets/two_rows.sheet', 36 bytes: refused 16 TABLE_FULL: \
the state has more prices than the table has words
lend table 3 # -> lend table 3
load_sheet_file ../../tests/sheets/two_rows.sheet # -> load the sheet file '../../tests/sheets/two_rows.sheet', 36 bytes: ok
look_up 31 8 # -> look up offer 31 at state 8: price 4, by the table
load_sheet_file tests # -> no call: 'tests' is a directory
load_sheet_file # -> no call: too few arguments: load_sheet_file NAME
load_sheet_file ../../tests/listing/paper.in # -> \
load the sheet file '../../tests/listing/paper.in', 14 bytes: refused 15 BAD_IMAGE: \
the length, the order or a bit of the image or sheet is wrong
",
    );
}

/// Each refusal has the name that the C header gives its number.
#[test]
fn refusals_have_the_names_of_the_header() {
    let header = include_str!("../../../include/cechnuol.h");
    let words: Vec<&str> = header.split_whitespace().collect();
    let scripts = ["refusals", "callers", "depth"].map(|name| format!("../scripts/{name}.script"));
    let (_, printed, _) = ran(&["--explain", &scripts[0], &scripts[1], &scripts[2]], b"");
    let mut met = BTreeSet::new();
    for (_, refusal) in printed.lines().filter_map(|line| line.split_once(": refused ")) {
        let (number, rest) = refusal.split_once(' ').expect("a name follows the number");
        let (name, sentence) = rest.split_once(": ").expect("a sentence follows the name");
        let declared = [format!("CECHNUOL_{name}"), "=".to_string(), format!("{number},")];
        assert!(words.windows(3).any(|words| *words == declared), "{refusal}");
        assert!(!sentence.is_empty(), "{refusal}");
        met.insert(number.parse::<u64>().expect("a number"));
    }
    assert_eq!(met, (1..=20).collect());
}
