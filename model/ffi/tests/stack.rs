//! The calls on the fullest store that document 01 allows, on the stack that include/cechnuol.h asks for.

use cechnuol::raw::{price_batch, BY_TABLE, DESK, FOYER, NO_PRICE};
use ffi::Lent;
use model::word::entry;
use std::thread;

/// What the header says that a flush and the image or the sheet of a state above the checkpoint need at most, and any other call;
/// and what a thread has beside it for itself and for the test.
const MOST: usize = 160 << 10;
const OTHERS: usize = 32 << 10;
const REST: usize = 16 << 10;

/// A table of 8,000 offers, all even, and 64 steps of 64 entries: new offers, which the table has no room for, or old ones.
fn full(new: bool) -> Lent {
    let mut lent = Lent::of_lengths(8000, 4096);
    let words: Vec<u64> = (0..8000).map(|k| entry(2 * k, Some(k))).collect();
    let mut image = vec![0, 0, 0, 0];
    image.extend(8000u16.to_be_bytes());
    image.extend(words.iter().flat_map(|word| word.to_be_bytes()));
    assert_eq!(lent.lend().load(0, &image), 0);
    for step in 0..64 {
        let list: Vec<u64> = (0..64).map(|k| entry(2 * (64 * k + step) + u32::from(new), Some(k))).collect();
        assert_eq!(lent.lend().commit(&list), 0);
    }
    lent
}

fn with_stack(size: usize, calls: impl FnOnce() + Send + 'static) {
    thread::Builder::new().stack_size(size + REST).spawn(calls).unwrap().join().unwrap();
}

#[test]
fn a_flush_of_everything() {
    let mut lent = full(false);
    with_stack(MOST, move || {
        assert_eq!(lent.lend().flush(64), 0);
        assert_eq!(lent.head[0], 8000);
    });
    let mut lent = full(true);
    with_stack(MOST, move || assert_eq!(lent.lend().flush(64), 16));
}

/// The tip's image, by its number and without one, and that of a state below it: with 12,096 offers at the most, and with the
/// table's 8,000.
#[test]
fn the_image_of_a_state_above_the_checkpoint() {
    for (new, length) in [(true, 96_774), (false, 64_006)] {
        let lent = full(new);
        let mut bytes = vec![0; length];
        with_stack(MOST, move || {
            let mut value = 0;
            assert_eq!((lent.to_read().write_image(&mut bytes, &mut value), value), (0, length as u64));
            assert_eq!(lent.to_read().write_state_image(64, &mut bytes, &mut value), 0);
            assert_eq!(lent.to_read().write_state_image(63, &mut bytes, &mut value), 0);
            assert_eq!(lent.to_read().write_state_image(1, &mut bytes, &mut value), 0);
            assert_eq!(lent.to_read().write_state_image(64, &mut bytes[1..], &mut value), 17);
            assert_eq!(lent.to_read().write_image(&mut [], &mut value), 17);
        });
    }
}

/// The same of its sheet: all seats of 256 rows and half of those of 244 more, at the most, and half of those of 500.
#[test]
fn the_sheet_of_a_state_above_the_checkpoint() {
    for (new, length) in [(true, 8 + 8 * 500 + 4 * 12_096), (false, 8 + 8 * 500 + 4 * 8000)] {
        let lent = full(new);
        let mut bytes = vec![0; length];
        with_stack(MOST, move || {
            let mut value = 0;
            assert_eq!((lent.to_read().write_sheet(&mut bytes, &mut value), value), (0, length as u64));
            assert_eq!(lent.to_read().write_state_sheet(64, &mut bytes, &mut value), 0);
            assert_eq!(lent.to_read().write_state_sheet(63, &mut bytes, &mut value), 0);
            assert_eq!(lent.to_read().write_state_sheet(1, &mut bytes, &mut value), 0);
            assert_eq!(lent.to_read().write_state_sheet(64, &mut bytes[1..], &mut value), 17);
            assert_eq!(lent.to_read().write_sheet(&mut [], &mut value), 17);
        });
    }
}

#[test]
fn every_other_call() {
    let mut lent = full(false);
    let (mut bytes, mut sheet) = (vec![0; 64_006], vec![0; 8 + 8 * 500 + 4 * 8000]);
    with_stack(OTHERS, move || {
        let (mut value, mut since) = (0, 0);
        let mut reads: Vec<u64> = (0..64).map(|k| entry(2 * k, None)).collect();
        let mut few: Vec<u64> = reads[..16].to_vec();
        assert_eq!(lent.lend().issue(DESK, 5, &mut reads), 0);
        assert_eq!(lent.lend().issue(FOYER, 7, &mut few), 0);
        // offers of the first two steps, one of the table alone, and one that is nowhere
        for (caller, offer, wanted) in [
            (DESK, 0, (0, 1)),
            (FOYER, 2, (0, 2)),
            (DESK, 15_998, (0, BY_TABLE)),
            (FOYER, 15_999, (NO_PRICE, BY_TABLE)),
        ] {
            let code = lent.to_read().look_up(caller, offer, 64, &mut value, &mut since);
            assert_eq!((code, since), wanted, "offer {offer}");
        }
        assert_eq!(lent.lend().commit(&[]), 13);
        assert_eq!(lent.lend().forward(DESK, 5, 64, &mut reads), 0);
        assert_eq!(lent.lend().forward(FOYER, 7, 64, &mut few), 0);
        assert_eq!(price_batch(&reads, &[], &mut [], &mut value), 0);
        assert_eq!(lent.lend().release(DESK, 5), 5);
        assert_eq!(lent.lend().release(FOYER, 7), 5);
        assert_eq!(lent.lend().roll_back(32), 0);
        assert_eq!(lent.to_read().write_state_image(0, &mut bytes, &mut value), 0);
        assert_eq!(lent.to_read().write_state_image(0, &mut bytes[1..], &mut value), 17);
        assert_eq!(lent.to_read().write_state_image(33, &mut bytes, &mut value), 11);
        assert_eq!(lent.to_read().write_state_sheet(0, &mut sheet, &mut value), 0);
        assert_eq!(lent.to_read().write_state_sheet(0, &mut sheet[1..], &mut value), 17);
        assert_eq!(lent.to_read().write_state_sheet(33, &mut sheet, &mut value), 11);
        assert_eq!(lent.lend().restart(&mut bytes), 0);
        assert_eq!(lent.to_read().write_image(&mut bytes, &mut value), 0);
        assert_eq!(lent.lend().load(63, &bytes), 0);
        assert_eq!(lent.to_read().write_sheet(&mut sheet, &mut value), 0);
        assert_eq!(lent.lend().load_sheet(63, &sheet), 0);
        assert_eq!(lent.lend().load(64, &bytes), 20);
        assert_eq!(lent.lend().load_sheet(64, &sheet), 20);
        assert_eq!(lent.lend().clear(64), 20);
        assert_eq!(lent.lend().clear(63), 0);
    });
}

/// The checkpoint's image and its sheet are no larger for a tip that the table has no room for.
#[test]
fn the_checkpoint_below_a_large_tip() {
    let mut lent = full(true);
    let mut bytes = vec![0; 64_006];
    with_stack(OTHERS, move || {
        let mut value = 0;
        assert_eq!((lent.to_read().write_state_image(0, &mut bytes, &mut value), value), (0, 64_006));
        assert_eq!((lent.to_read().write_state_sheet(0, &mut bytes, &mut value), value), (0, 36_008));
        assert_eq!(lent.lend().restart(&mut bytes), 0);
        assert_eq!((lent.to_read().write_image(&mut bytes, &mut value), value), (0, 64_006));
    });
}
