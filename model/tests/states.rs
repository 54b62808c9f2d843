//! The image and the sheet of any kept state, and the restart that keeps the checkpoint.

use model::caller::Caller::Desk;
use model::changes::map_of;
use model::format::Format::{Image, Sheet};
use model::ground::Ground;
use model::head::Head;
use model::store::{Store, STATE_OFFERS};
use model::word::entry;

/// Offers 5 and 9 at state 7 in a table of two words, and a read open since then. The step to 8 adds offer 2, puts 5 at 0 and
/// removes 9, and is flushed; that to 9 adds offers 3 and 4, and that to 10 removes all.
fn store() -> Store {
    let mut store = Store::of_lengths(2, 20);
    let image = [0, 0, 0, 7, 0, 2, 0x80, 0, 0, 5, 0, 0, 0x04, 0xB0, 0x80, 0, 0, 9, 0, 0, 0x02, 0xBC];
    assert_eq!(store.load(0, Image, &image), Ok(()));
    assert_eq!(store.issue(Desk, 0, &mut [entry(5, None)]), Ok(()));
    assert_eq!(store.commit(&[entry(2, Some(1)), entry(5, Some(0)), entry(9, None)]), Ok(()));
    assert_eq!(store.flush(8), Ok(()));
    assert_eq!(store.commit(&[entry(3, Some(3)), entry(4, Some(4))]), Ok(()));
    assert_eq!(store.commit(&[2, 3, 4, 5].map(|offer| entry(offer, None))), Ok(()));
    assert_eq!((store.head.oldest, store.head.checkpoint, store.head.tip), (7, 8, 10));
    store
}

const AT_8: [u8; 22] = [0, 0, 0, 8, 0, 2, 0x80, 0, 0, 2, 0, 0, 0, 1, 0x80, 0, 0, 5, 0, 0, 0, 0];
const AT_9: [u8; 38] = [
    0, 0, 0, 9, 0, 4, 0x80, 0, 0, 2, 0, 0, 0, 1, 0x80, 0, 0, 3, 0, 0, 0, 3, 0x80, 0, 0, 4, 0, 0, 0, 4, 0x80,
    0, 0, 5, 0, 0, 0, 0,
];
const AT_10: [u8; 6] = [0, 0, 0, 10, 0, 0];

/// The sheets of the same states: row 0 with seats 2 and 5, with seats 2 to 5, and no row.
const SHEET_8: [u8; 24] = [0, 0, 0, 8, 0, 0, 0, 1, 0, 0, 0, 0, 0x24, 0, 0, 0, 0, 0, 0, 1, 0, 0, 0, 0];
const SHEET_9: [u8; 32] =
    [0, 0, 0, 9, 0, 0, 0, 1, 0, 0, 0, 0, 0x3C, 0, 0, 0, 0, 0, 0, 1, 0, 0, 0, 3, 0, 0, 0, 4, 0, 0, 0, 0];
const SHEET_10: [u8; 8] = [0, 0, 0, 10, 0, 0, 0, 0];

#[test]
fn the_image_and_the_sheet_of_each_kept_state() {
    let store = store();
    let images = [(Some(8), &AT_8[..]), (Some(9), &AT_9), (Some(10), &AT_10), (None, &AT_10)];
    let sheets = [(Some(8), &SHEET_8[..]), (Some(9), &SHEET_9), (Some(10), &SHEET_10), (None, &SHEET_10)];
    let images = images.map(|(state, image)| (Image, state, image));
    let sheets = sheets.map(|(state, sheet)| (Sheet, state, sheet));
    for (format, state, wanted) in images.into_iter().chain(sheets) {
        for more in [0, 1, 100] {
            let mut bytes = vec![0xAA; wanted.len() + more];
            assert_eq!(store.write(format, state, &mut bytes), Ok(wanted.len()), "{format} of {state:?}");
            assert_eq!(bytes, [wanted, &vec![0xAA; more]].concat(), "{format} of {state:?}");
        }
        for room in 0..wanted.len() {
            let mut bytes = vec![0xAA; room];
            let answer = store.write(format, state, &mut bytes);
            assert_eq!(answer, Err(Ground::Output), "{format} of {state:?} into {room}");
            assert_eq!(bytes, vec![0xAA; room]);
        }
    }
    for (format, state) in
        [Image, Sheet].into_iter().flat_map(|it| [0, 7, 11, u32::MAX].map(|state| (it, state)))
    {
        assert_eq!(
            store.write(format, Some(state), &mut [0; 100]),
            Err(Ground::State),
            "{format} of {state}"
        );
        assert_eq!(store.write(format, Some(state), &mut []), Err(Ground::State), "{format} of {state}");
    }
}

/// The table has two words, and state 9 has four offers: no flush, but an image.
#[test]
fn a_state_that_the_table_has_no_room_for() {
    let store = store();
    assert_eq!(store.clone().flush(9), Err(Ground::TableFull));
    for (words, outcome) in
        [(2, Err(Ground::TableFull)), (3, Err(Ground::TableFull)), (4, Ok(())), (5, Ok(()))]
    {
        for (format, bytes) in [(Image, &AT_9[..]), (Sheet, &SHEET_9)] {
            let mut elsewhere = Store::of_lengths(words, 1);
            assert_eq!(elsewhere.load(0, format, bytes), outcome, "{format} into {words} words");
            if outcome.is_ok() {
                assert_eq!(elsewhere.head, Head::at_rest(9, 4, 0));
                assert_eq!(elsewhere.map_at(9), store.map_at(9));
            }
        }
    }
}

/// A restart goes by the checkpoint's image, whether the tip's is shorter, as at state 10, or longer, as at state 9, and keeps the
/// depth.
#[test]
fn a_restart_keeps_the_checkpoint() {
    for tip in [8, 9, 10] {
        let mut store = store();
        store.head.depth = tip;
        assert_eq!(store.roll_back(tip), Ok(()));
        for room in 0..AT_8.len() {
            let (before, mut bytes) = (store.clone(), vec![0xAA; room]);
            assert_eq!(store.restart(&mut bytes), Err(Ground::Output), "tip {tip}, {room} bytes");
            assert_eq!((&store, bytes), (&before, vec![0xAA; room]));
        }
        let mut bytes = [0xAA; 24];
        assert_eq!(store.restart(&mut bytes), Ok(()));
        assert_eq!(bytes[..], [&AT_8[..], &[0xAA; 2]].concat());
        assert_eq!((&store.head, store.map_at(8)), (&Head::at_rest(8, 2, tip), map_of(&store.table)));
        assert_eq!(store.journal, vec![0; 20]);
    }
}

/// The longest image: 8,000 offers in the table, and 64 steps of 64 new ones. The sheets of these states.
#[test]
fn the_longest_image() {
    let words: Vec<u64> = (0..8000).map(|offer| entry(2 * offer, Some(offer))).collect();
    let mut store = Store::of_lengths(8000, 4096);
    store.table.copy_from_slice(&words);
    store.head = Head::at_rest(0, 8000, 0);
    for step in 0..64 {
        let list: Vec<u64> = (0..64).map(|k| entry(2 * (64 * k + step) + 1, Some(step))).collect();
        assert_eq!(store.commit(&list), Ok(()));
    }
    assert_eq!(STATE_OFFERS, 12_096);
    let mut bytes = vec![0; 96_774];
    for state in 0..=64 {
        let length = 64_006 + 512 * state as usize;
        assert_eq!(store.write(Image, Some(state), &mut bytes[..length - 1]), Err(Ground::Output));
        assert_eq!(store.write(Image, Some(state), &mut bytes), Ok(length));
    }
    assert_eq!(bytes[..14], [0, 0, 0, 64, 0x2F, 0x40, 0x80, 0, 0, 0, 0, 0, 0, 0]);
    assert_eq!(store.write(Image, None, &mut bytes[..96_773]), Err(Ground::Output));
    assert_eq!(Store::of_lengths(8000, 1).load(0, Image, &bytes), Err(Ground::TableFull));
    // Every row has its 16 even seats, or all 32 where the steps put the odd ones.
    let mut bytes = vec![0; 145_160];
    for (state, length) in
        [(0, 8 + 8 * 500 + 4 * 8000), (1, 8 + 8 * 500 + 4 * 8064), (64, 8 + 8 * 500 + 4 * 12_096)]
    {
        assert_eq!(store.write(Sheet, Some(state), &mut bytes[..length - 1]), Err(Ground::Output));
        assert_eq!(store.write(Sheet, Some(state), &mut bytes), Ok(length));
        let mut elsewhere = Store::of_lengths(8000, 1);
        let outcome = if state == 0 { Ok(()) } else { Err(Ground::TableFull) };
        assert_eq!(elsewhere.load(0, Sheet, &bytes[..length]), outcome);
    }
    assert_eq!(store.restart(&mut bytes[..64_005]), Err(Ground::Output));
    assert_eq!(store.restart(&mut bytes[..64_006]), Ok(()));
    assert_eq!(store.table, words);
}
