//! Each constant against what the library does at its edge.

mod common;

use cechnuol::raw::{StoreMut, CHECKPOINT, DEPTH, ENDS, OLDEST, TIP, USED};
use cechnuol::Caller::{Desk, Foyer};
use cechnuol::{image_bytes_of, price_batch, sheet_bytes_of, Entry, Order, Refusal, Store};
use cechnuol::{
    BATCH_ORDERS, FOYER_SLOT, FOYER_WORDS, HEAD_WORDS, IMAGE_BYTES, JOURNAL_WORDS, LIST_WORDS, MOST_DEPTH,
    SHEET_BYTES, SLOTS, STEPS, TABLE_WORDS, TALLY_WORDS,
};
use common::{of_lengths, refused, store, with_head};

#[test]
fn tables_and_journals() {
    for (table, journal) in [(1, 1), (TABLE_WORDS, JOURNAL_WORDS)] {
        assert_eq!(of_lengths(table, journal).clear(0), Ok(()));
        assert!(Store::new(table, journal).is_ok());
    }
    for (table, journal) in [(0, 1), (1, 0), (TABLE_WORDS + 1, 1), (1, JOURNAL_WORDS + 1)] {
        assert_eq!(of_lengths(table, journal).clear(0), Err(Refusal::Lengths));
        assert_eq!(Store::new(table, journal), Err(Refusal::Lengths));
    }
    for huge in [usize::MAX, usize::MAX / 8, 1 << 40] {
        assert_eq!(Store::new(huge, 1), Err(Refusal::Lengths));
        assert_eq!(Store::new(1, huge), Err(Refusal::Lengths));
    }
}

#[test]
fn lists() {
    let entries: Vec<Entry> = (0..LIST_WORDS as u32 + 1).map(Entry::ask).collect();
    let mut store = of_lengths(1, 4096);
    assert_eq!(store.commit(&entries[..LIST_WORDS]), Ok(()));
    assert_eq!(store.commit(&entries), Err(Refusal::BadList));
    assert_eq!(store.issue(Desk, 0, &mut entries[..LIST_WORDS].to_vec()), Ok(()));
    assert_eq!(store.issue(Desk, 1, &mut entries.clone()), Err(Refusal::BadList));
    assert_eq!(store.forward(Desk, 0, 1, &mut entries.clone()), Err(Refusal::BadList));
}

#[test]
fn lists_of_the_foyer() {
    let entries: Vec<Entry> = (0..LIST_WORDS as u32 + 1).map(Entry::ask).collect();
    let long = [FOYER_WORDS + 1, LIST_WORDS].map(|length| (length, Refusal::LongList));
    let mut store = of_lengths(1, 1);
    for (length, refusal) in long.into_iter().chain([(LIST_WORDS + 1, Refusal::BadList)]) {
        assert_eq!(store.issue(Foyer, 7, &mut entries[..length].to_vec()), Err(refusal));
    }
    assert_eq!(store.issue(Foyer, 7, &mut entries[..FOYER_WORDS].to_vec()), Ok(()));
    for (length, refusal) in long.into_iter().chain([(LIST_WORDS + 1, Refusal::BadList)]) {
        assert_eq!(store.forward(Foyer, 7, 0, &mut entries[..length].to_vec()), Err(refusal));
    }
    assert_eq!(store.forward(Foyer, 7, 0, &mut entries[..FOYER_WORDS].to_vec()), Ok(()));
    assert_eq!((Desk.list_words(), Foyer.list_words()), (64, 16));
}

#[test]
fn batches() {
    let orders = vec![Order::list(5, 7); BATCH_ORDERS + 1];
    let mut out = [Entry::from_word(0)];
    assert_eq!(price_batch(&[Entry::ask(5)], &orders[..BATCH_ORDERS], &mut out), Ok(1));
    assert_eq!(price_batch(&[Entry::ask(5)], &orders, &mut out), Err(Refusal::BadList));
}

#[test]
fn slots() {
    let mut store = of_lengths(1, 1);
    for (caller, other) in [(Desk, Foyer), (Foyer, Desk)] {
        for slot in caller.slots() {
            assert_eq!(store.issue(other, slot, &mut []), Err(Refusal::OthersSlot));
            assert_eq!(store.issue(caller, slot, &mut []), Ok(()));
        }
        assert_eq!(store.issue(caller, SLOTS, &mut []), Err(Refusal::SlotRange));
    }
    assert_eq!((Desk.slots(), Foyer.slots()), (0..FOYER_SLOT, 6..8));
    assert!((0..SLOTS).all(|slot| store.head().is_open(slot) && store.head().issued(slot) == Some(0)));
    assert!(!store.head().is_open(SLOTS) && store.head().issued(SLOTS).is_none());
}

#[test]
fn steps() {
    let mut store = of_lengths(1, 1);
    (0..STEPS).for_each(|_| assert_eq!(store.commit(&[]), Ok(())));
    assert_eq!(store.head().held_steps(), STEPS);
    assert_eq!(store.commit(&[]), Err(Refusal::StepsFull));
}

/// With the largest depth one of as many steps as can be held may be flushed, and with that there is room for another.
#[test]
fn depths() {
    let mut store = of_lengths(1, 1);
    for depth in [MOST_DEPTH + 1, 127, 128, 256, 1 << 31, u32::MAX] {
        refused(&store, Refusal::TooDeep, |store| store.clear(depth));
        refused(&store, Refusal::TooDeep, |store| store.load(depth, &[0; 6]));
        refused(&store, Refusal::TooDeep, |store| store.load_sheet(depth, &[0; 8]));
    }
    for depth in [0, 1, MOST_DEPTH - 1, MOST_DEPTH] {
        assert_eq!((store.load(depth, &[0; 6]), store.head().depth()), (Ok(()), depth));
        assert_eq!((store.load_sheet(depth, &[0; 8]), store.head().depth()), (Ok(()), depth));
        assert_eq!((store.clear(depth), store.head().depth()), (Ok(()), depth));
    }
    (0..STEPS).for_each(|_| assert_eq!(store.commit(&[]), Ok(())));
    refused(&store, Refusal::StepsFull, |store| store.commit(&[]));
    refused(&store, Refusal::TooDeep, |store| store.flush(2));
    assert_eq!((store.head().highest_flush(), store.flush(1)), (1, Ok(())));
    assert_eq!(store.commit(&[]), Ok(()));
}

/// A head whose depth is more than that is unsound, whether or not it fits 32 bits.
#[test]
fn depths_of_heads() {
    for depth in [64, u32::MAX.into(), 1 << 32, (1 << 32) + 1, u64::MAX] {
        let damaged = with_head(&store(), &[(DEPTH, depth)]);
        refused(&damaged, Refusal::Unsound, |store| store.flush(1));
        refused(&damaged, Refusal::Unsound, |store| store.look_up(Desk, 5, 1));
        refused(&damaged, Refusal::TooDeep, |store| store.clear(64));
        assert_eq!((damaged.clone().clear(5), damaged.clone().load(5, &[0; 6])), (Ok(()), Ok(())));
    }
    for depth in 0..=63 {
        assert_eq!(with_head(&store(), &[(DEPTH, depth)]).flush(1), Ok(()));
    }
}

#[test]
fn images() {
    assert_eq!((IMAGE_BYTES, image_bytes_of(0), image_bytes_of(usize::MAX)), (96_774, 6, usize::MAX));
    let full = image_bytes_of(TABLE_WORDS);
    let image = image_of(0, TABLE_WORDS as u32);
    assert_eq!((full, image.len()), (64_006, 64_006));
    let mut store = of_lengths(TABLE_WORDS, JOURNAL_WORDS);
    assert_eq!(store.load(0, &image), Ok(()));
    assert_eq!(store.image_bytes(), full);
    let mut bytes = vec![0; IMAGE_BYTES];
    assert_eq!(store.write_image(&mut bytes[..full - 1]), Err(Refusal::OutputShort));
    assert_eq!((store.write_image(&mut bytes), &bytes[..full]), (Ok(full), &image[..]));
    // the fullest state: each step has as many new offers as a list may have
    for step in 0..STEPS as u32 {
        let first = TABLE_WORDS as u32 + step * LIST_WORDS as u32;
        let list: Vec<Entry> = (first..first + LIST_WORDS as u32).map(|offer| Entry::put(offer, 7)).collect();
        assert_eq!(store.commit(&list), Ok(()));
    }
    assert_eq!(store.image_bytes(), IMAGE_BYTES);
    assert_eq!(store.write_image(&mut bytes[..IMAGE_BYTES - 1]), Err(Refusal::OutputShort));
    assert_eq!(store.write_image(&mut bytes), Ok(IMAGE_BYTES));
    assert_eq!(bytes, image_of(64, (TABLE_WORDS + JOURNAL_WORDS) as u32));
    assert_eq!(store.load(0, &bytes), Err(Refusal::TableFull));
    assert_eq!((store.write_state_image(0, &mut bytes), &bytes[..full]), (Ok(full), &image[..]));
    assert_eq!(store.restart(&mut bytes[..full - 1]), Err(Refusal::OutputShort));
    assert_eq!(store.restart(&mut bytes[..full]), Ok(()));
}

/// Each offer in a row of its own, and all seats of each row.
#[test]
fn sheets() {
    assert_eq!((SHEET_BYTES, sheet_bytes_of(0), sheet_bytes_of(usize::MAX)), (145_160, 8, usize::MAX));
    for (rise, of_rows) in [(32, 12), (1, 4)] {
        let offers = |from: usize, to: usize| (from..to).map(move |k| rise * k as u32);
        let length = |offers: usize| match of_rows {
            12 => sheet_bytes_of(offers),
            _ => 8 + 8 * offers.div_ceil(32) + 4 * offers,
        };
        let mut store = of_lengths(TABLE_WORDS, JOURNAL_WORDS);
        let full = sheet_of(0, offers(0, TABLE_WORDS));
        assert_eq!(full.len(), length(TABLE_WORDS));
        assert_eq!(store.load_sheet(0, &full), Ok(()));
        let mut bytes = vec![0; SHEET_BYTES];
        assert_eq!(store.write_sheet(&mut bytes[..full.len() - 1]), Err(Refusal::OutputShort));
        assert_eq!((store.write_sheet(&mut bytes), &bytes[..full.len()]), (Ok(full.len()), &full[..]));
        for step in 0..STEPS {
            let first = TABLE_WORDS + step * LIST_WORDS;
            let list: Vec<Entry> =
                offers(first, first + LIST_WORDS).map(|offer| Entry::put(offer, 7)).collect();
            assert_eq!(store.commit(&list), Ok(()));
        }
        assert_eq!(store.sheet_bytes(), SHEET_BYTES);
        let wanted = sheet_of(64, offers(0, TABLE_WORDS + JOURNAL_WORDS));
        assert_eq!(wanted.len(), length(TABLE_WORDS + JOURNAL_WORDS));
        assert_eq!(store.write_sheet(&mut bytes[..wanted.len() - 1]), Err(Refusal::OutputShort));
        assert_eq!(store.write_sheet(&mut bytes), Ok(wanted.len()));
        assert_eq!(bytes[..wanted.len()], wanted);
        assert_eq!(store.load_sheet(0, &wanted), Err(Refusal::TableFull));
    }
}

/// The sheet of these offers, each at 7: all seats of a row, or seat 0 alone.
fn sheet_of(state: u32, offers: impl Iterator<Item = u32>) -> Vec<u8> {
    let mut rows: Vec<(u32, Vec<u32>)> = Vec::new();
    for offer in offers {
        match rows.last_mut() {
            Some((row, seats)) if *row == offer / 32 => seats.push(offer % 32),
            _ => rows.push((offer / 32, vec![offer % 32])),
        }
    }
    let mut numbers = vec![state, rows.len() as u32];
    for (row, seats) in rows {
        numbers.extend([row * 64, seats.iter().map(|seat| 1 << (31 - seat)).sum()]);
        numbers.extend(seats.iter().map(|_| 7));
    }
    numbers.into_iter().flat_map(u32::to_be_bytes).collect()
}

/// The image of so many offers, each at 7.
fn image_of(state: u32, offers: u32) -> Vec<u8> {
    let mut image = state.to_be_bytes().to_vec();
    image.extend((offers as u16).to_be_bytes());
    image.extend((0..offers).flat_map(|offer| Entry::put(offer, 7).word().to_be_bytes()));
    image
}

/// Of any words of a head, no more bytes than the longest image has, and than the longest sheet has.
#[test]
fn bytes_for_images() {
    let (used, end, last) = (USED, ENDS, ENDS + STEPS - 1);
    for words in [
        &[(used, u64::MAX)][..],
        &[(end, u64::MAX)],
        &[(used, u64::MAX), (end, u64::MAX)],
        &[(TIP, u64::MAX), (last, u64::MAX)],
        &[(CHECKPOINT, u64::MAX), (end, 7)],
        &[(OLDEST, 7), (end, 7)],
        &[(TIP, u64::MAX), (DEPTH, u64::MAX)],
    ] {
        assert!(with_head(&store(), words).image_bytes() <= IMAGE_BYTES, "{words:?}");
        assert!(with_head(&store(), words).sheet_bytes() <= SHEET_BYTES, "{words:?}");
    }
    assert_eq!(with_head(&store(), &[(used, u64::MAX)]).image_bytes(), IMAGE_BYTES);
    assert_eq!(with_head(&store(), &[(used, u64::MAX)]).sheet_bytes(), SHEET_BYTES);
}

/// The last word of the head is tested, and the last of the tally counted; the library writes nothing behind them.
#[test]
fn heads_and_tallies() {
    assert_eq!(with_head(&store(), &[(HEAD_WORDS - 1, 64)]).release(Desk, 3), Err(Refusal::Unsound));
    let (mut table, mut journal) = ([7; 2], [7; 2]);
    let mut head = [[u64::MAX; HEAD_WORDS]; 2];
    let mut tally = [[u64::MAX; TALLY_WORDS]; 2];
    let ([head, after_head], [tally, after_tally]) = (&mut head, &mut tally);
    let calls: [fn(StoreMut) -> u64; 3] =
        [|lent| lent.clear(0), |lent| lent.commit(&[]), |lent| lent.flush(1)];
    for call in calls {
        assert_eq!(call(StoreMut { table: &mut table, journal: &mut journal, head, tally }), 0);
    }
    assert_eq!((tally[0], tally[TALLY_WORDS - 1]), (1, 1));
    assert_eq!((*after_head, *after_tally), ([u64::MAX; HEAD_WORDS], [u64::MAX; TALLY_WORDS]));
}
