//! Stores over memory that is owned, lent, of arrays, or only to be read; and what follows for threads.

mod common;

use cechnuol::raw::DEPTH;
use cechnuol::Caller::Desk;
use cechnuol::{Entry, Head, Refusal, Store, Tally, HEAD_WORDS};
use common::{by_table, since, store, with_head, IMAGE, SHEET, TIP_IMAGE, TIP_SHEET};
use std::thread;

const ENTRY: Entry = Entry::put(5, 1200);

#[test]
fn lent_memory() {
    let (mut table, mut journal) = (vec![7; 8], [7; 16]);
    let mut lent = Store::lend(&mut table, &mut journal).expect("lengths in their range");
    assert_eq!(lent.commit(&[ENTRY]), Ok(()));
    assert_eq!((lent.table(), lent.journal()[0]), (&[0; 8][..], ENTRY.word()));
    assert_eq!(lent.flush(1), Ok(()));
    let (_, _, head, tally) = lent.into_parts();
    assert_eq!((table[0], &journal), (ENTRY.word(), &[0; 16]));
    // taken up again, over the same memory
    let again = Store::from_parts(&mut table[..], &mut journal[..], head, tally);
    assert_eq!(again.look_up(Desk, 5, 1), by_table(Some(1200)));
}

#[test]
fn memory_that_is_refused() {
    let (mut table, mut journal) = ([7; 8], vec![7; 4097]);
    assert_eq!(Store::lend(&mut [], &mut journal).unwrap_err(), Refusal::Lengths);
    assert_eq!(Store::lend(&mut table, &mut journal).unwrap_err(), Refusal::Lengths);
    assert_eq!((table, journal), ([7; 8], vec![7; 4097]));
}

#[test]
fn arrays_and_boxes() {
    let mut arrays =
        Store::from_parts([7; 4], [7; 16], Head::from_words([7; HEAD_WORDS]), Tally::from_words([7; 3]));
    assert_eq!(arrays.commit(&[ENTRY]), Err(Refusal::Unsound));
    assert_eq!(
        (arrays.clear(0), arrays.commit(&[ENTRY]), arrays.look_up(Desk, 5, 1)),
        (Ok(()), Ok(()), since(1, Some(1200)))
    );
    let (table, journal) = (vec![0; 4].into_boxed_slice(), vec![0; 16]);
    let mut boxed = Store::from_parts(table, journal, Head::default(), Tally::default());
    assert_eq!((boxed.commit(&[ENTRY]), boxed.look_up(Desk, 5, 1)), (Ok(()), since(1, Some(1200))));
}

/// A store over slices that cannot be written has the queries, and only those.
#[test]
fn memory_to_read() {
    let kept = store();
    let reader = Store::from_parts(kept.table(), kept.journal(), kept.head().clone(), *kept.tally());
    assert_eq!(reader.look_up(Desk, 5, 1), by_table(Some(1200)));
    assert_eq!(reader.look_up(Desk, 5, 2), since(2, Some(1100)));
    assert_eq!(reader.look_up(Desk, 9, 2), since(2, None));
    assert_eq!(reader.look_up(Desk, 7, 2), by_table(None));
    let mut bytes = vec![0; reader.image_bytes()];
    assert_eq!((reader.write_image(&mut bytes), &bytes[..22]), (Ok(22), &TIP_IMAGE[..]));
    assert_eq!((reader.write_state_image(1, &mut bytes), &bytes[..22]), (Ok(22), &IMAGE[..]));
    let mut bytes = vec![0; reader.sheet_bytes()];
    assert_eq!((reader.write_sheet(&mut bytes), &bytes[..24]), (Ok(24), &TIP_SHEET[..]));
    assert_eq!((reader.write_state_sheet(1, &mut bytes), &bytes[..24]), (Ok(24), &SHEET[..]));
    assert_eq!(reader.entries(), kept.entries());
}

#[test]
fn queries_from_several_threads() {
    let store = store();
    thread::scope(|scope| {
        for _ in 0..4 {
            scope.spawn(|| {
                (0..1000).for_each(|_| assert_eq!(store.look_up(Desk, 5, 2), since(2, Some(1100))))
            });
        }
        scope.spawn(|| {
            for _ in 0..1000 {
                let mut bytes = [0; 22];
                assert_eq!((store.write_image(&mut bytes), bytes), (Ok(22), TIP_IMAGE));
                assert_eq!((store.write_state_image(1, &mut bytes), bytes), (Ok(22), IMAGE));
                let mut bytes = [0; 24];
                assert_eq!((store.write_sheet(&mut bytes), bytes), (Ok(24), TIP_SHEET));
                assert_eq!((store.write_state_sheet(1, &mut bytes), bytes), (Ok(24), SHEET));
            }
        });
    });
    let moved = thread::spawn(move || store.look_up(Desk, 9, 1));
    assert_eq!(moved.join().expect("a lookup"), by_table(Some(700)));
}

/// What is printed of a store for those who look for a fault: every word of head and tally, and no table of 8,000 words.
#[test]
fn what_is_printed() {
    let text = format!("{:?}", with_head(&store(), &[(DEPTH, 9)]));
    let head = ["used: 2", "checkpoint: 1", "tip: 2", "depth: 9"];
    for part in head.into_iter().chain(["table_words: 8", "journal_words: 16", "committed: 2", ".."]) {
        assert!(text.contains(part), "{part} in {text}");
    }
    let odd = format!("{:?}", Head::from_words([u64::MAX; HEAD_WORDS]));
    assert_eq!(odd.matches(&u64::MAX.to_string()).count(), HEAD_WORDS);
}
