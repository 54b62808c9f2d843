//! `replay --sheet`: what it prints for sheets, for bytes that are none, and where it cannot read.

mod program;

use program::ran;

/// Numbers of 32 bits as bytes, most significant first.
fn bytes_of(numbers: &[u32]) -> Vec<u8> {
    numbers.iter().flat_map(|number| number.to_be_bytes()).collect()
}

/// State 8: offers 5, 31 and 2147483647.
const NUMBERS: [u32; 9] = [8, 2, 0, 0x0400_0001, 1200, 4, 0xFFFF_FFC0, 1, 3];
const SHOWN: &str = "state 8 rows 2 offers 3\nrow 0: seat 5 1200, seat 31 4\nrow 67108863: seat 31 3\n";

#[test]
fn a_sheet_on_standard_input() {
    for arguments in [&["--sheet"][..], &["--sheet", "-"], &["-", "--sheet"], &["--sheet", "--", "-"]] {
        assert_eq!(
            ran(arguments, &bytes_of(&NUMBERS)),
            (0, SHOWN.to_string(), String::new()),
            "{arguments:?}"
        );
    }
    assert_eq!(ran(&["--sheet"], &[0; 8]), (0, "state 0 rows 0 offers 0\n".to_string(), String::new()));
}

/// The example of docs/REPLAY.md: its bytes, as printf has them there, and what is printed.
#[test]
fn the_example_of_the_page() {
    let page = include_str!("../../../docs/REPLAY.md");
    let octal: String = bytes_of(&NUMBERS).iter().map(|byte| format!("\\{byte:o}")).collect();
    assert!(page.contains(&format!("printf '{octal}' | replay --sheet")), "{octal}");
    let shown: String = SHOWN.lines().map(|line| format!("    {line}\n")).collect();
    assert!(page.contains(&shown));
}

/// The file that the page has a script load.
#[test]
fn a_sheet_in_a_file() {
    let path = "../../tests/sheets/two_rows.sheet";
    assert_eq!(std::fs::read(path).expect("the file is stored"), bytes_of(&NUMBERS));
    assert_eq!(ran(&["--sheet", path], b""), (0, SHOWN.to_string(), String::new()));
}

/// Status 1, as for a line that is no call, and what is wrong on standard output.
#[test]
fn bytes_that_are_no_sheet() {
    let cut = "no sheet, refused 15: at byte 35, the bytes end before the last row does\n";
    assert_eq!(ran(&["--sheet"], &bytes_of(&NUMBERS)[..35]), (1, cut.to_string(), String::new()));
    let empty = "no sheet, refused 15: at byte 0, the bytes end before state number and count of rows do\n";
    assert_eq!(ran(&["--sheet"], b""), (1, empty.to_string(), String::new()));
    let image = "no sheet, refused 15: at byte 14, the bytes end before the last row does\n";
    assert_eq!(ran(&["--sheet", "../../tests/listing/paper.in"], b""), (1, image.to_string(), String::new()));
}

#[test]
fn what_cannot_be_read() {
    let error = |name: &str, why: &str| (2, String::new(), format!("replay: {name}: {why}\n"));
    assert_eq!(ran(&["--sheet", "src"], b""), error("src", "Is a directory (os error 21)"));
    let none = "No such file or directory (os error 2)";
    assert_eq!(ran(&["--sheet", "no such file"], b""), error("no such file", none));
    assert_eq!(ran(&["--sheet", "/dev/zero"], b""), error("/dev/zero", "more than 147456 bytes"));
    let most = ran(&["--sheet"], &vec![0; 147_456]);
    assert_eq!(
        most,
        (1, "no sheet, refused 15: at byte 8, bytes follow the last row\n".to_string(), String::new())
    );
    assert_eq!(ran(&["--sheet"], &vec![0; 147_457]), error("standard input", "more than 147456 bytes"));
}
