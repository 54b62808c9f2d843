//! Lines that are no call, blank, or oddly spaced.

use super::{Generator, Item};
use crate::script::{respond, LINE_BYTES};

/// Lines that are no call on any memory, for one reason each.
const NO_CALLS: [&str; 73] = [
    "Clear",
    "clear 0 0",
    "clear x",
    "clear -1",
    "clear 4294967296",
    "drop 1",
    "load 1 14",
    "load 4294967296",
    "load_sheet 1 20",
    "load_sheet depth",
    "load_file",
    "load_file .",
    "load_file no/such/file",
    "load_file no/such/file 5",
    "load_file no/such/file x",
    "load_file no/such/file 5 5",
    "load_file /dev/zero",
    "load_sheet_file",
    "load_sheet_file .",
    "load_sheet_file no/such/file",
    "load_sheet_file no/such/file 63",
    "load_sheet_file no/such/file -5",
    "load_sheet_file /dev/zero",
    "lend",
    "lend table",
    "lend table 8193",
    "lend journal 4609",
    "lend bytes 147457",
    "lend words 5",
    "lend table 1 2",
    "poke table 0",
    "poke table 0 80000005000004B",
    "poke table 0 80000005000004B00",
    "poke table 8192 80000005000004B0",
    "poke table 18446744073709551615 80000005000004B0",
    "poke bytes 0 0",
    "poke bytes 0 0G",
    "fill table 0 8193 0000000000000000 0000000000000000",
    "fill bytes 0 2305843009213693952 0000000000000000 0000000000000000",
    "head used -1",
    "head used 18446744073709551616",
    "head tip 4294967296",
    "head depth",
    "head depth 4294967296",
    "head depth 1 2",
    "head held 0 2",
    "head held 8 1",
    "head issued 0",
    "head ends 64 0",
    "head",
    "tally dropped 3",
    "tally committed +3",
    "show",
    "show table 0 81",
    "show heads",
    "commit 80000005000004B0 /",
    "roll_back",
    "flush 000000000000000000001",
    "write_image tip",
    "write_image 0 0",
    "write_image 4294967296",
    "write_sheet tip",
    "write_sheet 0 0",
    "write_sheet 4294967296",
    "look_up 5",
    "look_up foyer 5",
    "foyer issue 6",
    "issue foyer",
    "issue hall 6",
    "commit foyer 80000005000004B0",
    "forward 0 0 80000005000004B0",
    "price_batch / /  / /",
    "price_batch /",
];

/// Lines with tabs and carriage returns, which are calls, and with bytes that make them none.
const SPACED: [&[u8]; 6] =
    [b"show\ttally", b"\t show \t tally\t", b"show tally\r", b"show tally\r\r", b"show\rtally", b"\xFF"];

impl Generator {
    /// Adds one such line. A line that is a call after all would change the unit, so each is given to it too.
    pub(super) fn noise(&mut self) {
        let line = match self.draw.rng.below(8) {
            0 => Vec::new(),
            1 => b"   # a comment \xFF clear".to_vec(),
            2 => [b"show tally #".as_slice(), &vec![b'x'; LINE_BYTES - 12]].concat(),
            3 => [b"show tally #".as_slice(), &vec![b'x'; LINE_BYTES - 11]].concat(),
            4 => b"  show   tally  ".to_vec(),
            5 => self.draw.rng.pick(&SPACED).to_vec(),
            _ => self.draw.rng.pick(&NO_CALLS).as_bytes().to_vec(),
        };
        let _ = respond(&mut self.unit, &line);
        self.items.push(Item::Noise(line));
    }
}
