//! The queries: they read a store, which may lie in read-only memory and may be queried from several threads at once,
//! and store nothing but their output. And what other calls only read may lie in read-only memory too.

use cechnuol::raw::{price_batch, StoreRef, BY_TABLE, DEPTH, DESK, FOYER, NO_PRICE};
use cechnuol::{HEAD_WORDS, TALLY_WORDS};
use ffi::said::{write, UNTOUCHED};
use ffi::{Lent, FOYERS};
use model::format::Format::{self, Image, Sheet};
use model::word::entry;
use std::ffi::{c_int, c_void};
use std::ptr::null_mut;
use std::{fs, slice, thread};

/// State 1, with offers 5 and 9, in the table; a step to state 2 above it, slot 3 open, and counts in the tally.
fn store() -> Lent {
    let mut lent = Lent::of_lengths(8, 16);
    assert_eq!(lent.lend().clear(0), 0);
    assert_eq!(lent.lend().commit(&[entry(5, Some(1200)), entry(9, Some(700))]), 0);
    assert_eq!(lent.lend().flush(1), 0);
    assert_eq!(lent.lend().issue(DESK, 3, &mut [entry(5, None)]), 0);
    let list = [entry(5, Some(1100)), entry(9, None), entry(11, Some(0)), entry(12, Some(1))];
    assert_eq!(lent.lend().commit(&list), 0);
    assert_eq!(lent.tally, [2, 0, 1]);
    lent
}

/// The images of states 1 and 2 of that store.
const IMAGE: [u8; 22] = [0, 0, 0, 1, 0, 2, 0x80, 0, 0, 5, 0, 0, 0x04, 0xB0, 0x80, 0, 0, 9, 0, 0, 0x02, 0xBC];
const TIP: [u8; 30] = [
    0, 0, 0, 2, 0, 3, 0x80, 0, 0, 5, 0, 0, 0x04, 0x4C, 0x80, 0, 0, 11, 0, 0, 0, 0, 0x80, 0, 0, 12, 0, 0, 0, 1,
];

/// The sheets of the same states: row 0 with seats 5 and 9, and with seats 5, 11 and 12.
const SHEET: [u8; 24] =
    [0, 0, 0, 1, 0, 0, 0, 1, 0, 0, 0, 0, 0x04, 0x40, 0, 0, 0, 0, 0x04, 0xB0, 0, 0, 0x02, 0xBC];
const TIP_SHEET: [u8; 28] =
    [0, 0, 0, 2, 0, 0, 0, 1, 0, 0, 0, 0, 0x04, 0x18, 0, 0, 0, 0, 0x04, 0x4C, 0, 0, 0, 0, 0, 0, 0, 1];

/// What a lookup answers, and what it leaves in the words for the price and for how fresh it is, which held [`UNTOUCHED`] and lie
/// between others that it leaves.
fn look_up(store: StoreRef, caller: u32, offer: u32, state: u32) -> (u64, u64, u64) {
    let mut words = [UNTOUCHED; 5];
    let [before, price, between, since, behind] = &mut words;
    let code = store.look_up(caller, offer, state, price, since);
    assert_eq!([*before, *between, *behind], [UNTOUCHED; 3]);
    (code, *price, *since)
}

/// What writing the image or the sheet of a state, or of none, answers, what it leaves in a count that held [`UNTOUCHED`], and so
/// many bytes that were 0xAA.
fn written(store: StoreRef, format: Format, state: Option<u32>, length: usize) -> (u64, u64, Vec<u8>) {
    let (mut bytes, mut count) = (vec![0xAA; length], UNTOUCHED);
    let code = write(store, format, state, &mut bytes, &mut count);
    (code, count, bytes)
}

/// Queries of that store, accepted and turned away, with their answers and output. Whoever calls, a lookup is the same.
fn ask(store: StoreRef) {
    let quotes = [
        (5, 1, (0, 1200, BY_TABLE)),
        (9, 1, (0, 700, BY_TABLE)),
        (11, 1, (NO_PRICE, UNTOUCHED, BY_TABLE)),
        (5, 2, (0, 1100, 2)),
        (9, 2, (NO_PRICE, UNTOUCHED, 2)),
        (11, 2, (0, 0, 2)),
        (7, 2, (NO_PRICE, UNTOUCHED, BY_TABLE)),
        (5, 0, (11, UNTOUCHED, UNTOUCHED)),
        (5, 3, (11, UNTOUCHED, UNTOUCHED)),
        (1 << 31, 1, (6, UNTOUCHED, UNTOUCHED)),
    ];
    for caller in [DESK].into_iter().chain(FOYERS) {
        for (offer, state, wanted) in quotes {
            assert_eq!(
                look_up(store, caller, offer, state),
                wanted,
                "{caller}: offer {offer} at state {state}"
            );
        }
    }
    let images = [(Image, None, &TIP[..]), (Image, Some(1), &IMAGE), (Image, Some(2), &TIP)];
    let sheets = [(Sheet, None, &TIP_SHEET[..]), (Sheet, Some(1), &SHEET), (Sheet, Some(2), &TIP_SHEET)];
    for (format, state, wanted) in images.into_iter().chain(sheets) {
        let (length, longer) = (wanted.len(), [wanted, &[0xAA; 3]].concat());
        assert_eq!(written(store, format, state, length), (0, length as u64, wanted.to_vec()));
        assert_eq!(written(store, format, state, length + 3), (0, length as u64, longer));
        assert_eq!(written(store, format, state, length - 1), (17, UNTOUCHED, vec![0xAA; length - 1]));
        assert_eq!(written(store, format, state, 0), (17, UNTOUCHED, vec![]));
    }
    for (state, length) in [(0, 30), (3, 30), (0, 0), (u32::MAX, 0)] {
        for format in [Image, Sheet] {
            assert_eq!(written(store, format, Some(state), length), (11, UNTOUCHED, vec![0xAA; length]));
        }
    }
}

/// All queries turned away on a ground, their output as it came.
fn ask_in_vain(store: StoreRef, ground: u64) {
    for caller in [DESK].into_iter().chain(FOYERS) {
        assert_eq!(look_up(store, caller, 5, 1), (ground, UNTOUCHED, UNTOUCHED));
    }
    for state in [None, Some(0), Some(1), Some(2), Some(3)] {
        for format in [Image, Sheet] {
            assert_eq!(written(store, format, state, 30), (ground, UNTOUCHED, vec![0xAA; 30]));
            assert_eq!(written(store, format, state, 0), (ground, UNTOUCHED, vec![]));
        }
    }
}

/// The ground on which queries are turned away after a change to a store, and that change.
type Damage = (u64, fn(&mut Lent));

/// Table, journal, head and tally are word for word as before, after queries that are accepted and such as are not.
#[test]
fn a_query_leaves_the_store() {
    let lent = store();
    ask(lent.to_read());
    assert_eq!(lent, store());
    let damages: [Damage; 12] = [
        (1, |lent| lent.table.clear()),
        (1, |lent| lent.table.resize(8001, 0)),
        (1, |lent| lent.journal.clear()),
        (1, |lent| lent.journal.resize(4097, 0)),
        (2, |lent| lent.head[3] += 1 << 32),
        (2, |lent| lent.head[4] = 2),
        (2, |lent| lent.head[DEPTH] = 64),
        (2, |lent| lent.head[DEPTH] += 1 << 32),
        (1, |lent| (lent.table, lent.head[DEPTH]) = (vec![], 64)),
        (2, |lent| lent.table[7] = 1),
        (1, |lent| (lent.table, lent.head[4]) = (vec![], 2)),
        (1, |lent| (lent.journal, lent.head[3]) = (vec![], 1 << 32)),
    ];
    for (ground, damage) in damages {
        let mut lent = store();
        damage(&mut lent);
        let before = lent.clone();
        ask_in_vain(lent.to_read(), ground);
        assert_eq!(lent, before);
    }
}

/// No tally is lent: whatever words it has make no difference, and stay.
#[test]
fn a_query_minds_no_tally() {
    for word in [0, 1, 7, u64::MAX] {
        let mut lent = store();
        lent.tally = [word; TALLY_WORDS];
        let before = lent.clone();
        ask(lent.to_read());
        assert_eq!(lent, before);
    }
}

/// Several threads query one store at once.
#[test]
fn queries_from_several_threads() {
    let lent = store();
    thread::scope(|scope| {
        for _ in 0..4 {
            scope.spawn(|| (0..1000).for_each(|_| ask(lent.to_read())));
        }
    });
    assert_eq!(lent, store());
}

// The functions and numbers of Linux's sys/mman.h that are used.
extern "C" {
    fn mmap(
        start: *mut c_void,
        length: usize,
        access: c_int,
        flags: c_int,
        file: c_int,
        at: i64,
    ) -> *mut c_void;
    fn mprotect(start: *mut c_void, length: usize, access: c_int) -> c_int;
}

const READ: c_int = 1;
const WRITE: c_int = 2;
const PRIVATE: c_int = 2;
const ANONYMOUS: c_int = 0x20;

/// A copy of words or bytes in memory that is mapped read-only; a program that writes there is ended.
fn read_only<T: Copy>(numbers: &[T]) -> &'static [T] {
    let length = size_of_val(numbers);
    // The pages are new and stay until the program ends; they are written here, and not once they are read-only.
    let copy: &[T] = unsafe {
        let pages = mmap(null_mut(), length, READ | WRITE, PRIVATE | ANONYMOUS, -1, 0);
        assert_ne!(pages as isize, -1, "memory is mapped");
        pages.cast::<T>().copy_from_nonoverlapping(numbers.as_ptr(), numbers.len());
        assert_eq!(mprotect(pages, length, READ), 0, "it is made read-only");
        slice::from_raw_parts(pages.cast(), numbers.len())
    };
    assert!(is_read_only(copy), "the system has it as read-only");
    copy
}

fn read_only_head(words: &[u64; HEAD_WORDS]) -> &'static [u64; HEAD_WORDS] {
    read_only(words).try_into().expect("as many words")
}

/// Whether the system has the memory where the numbers begin as one that may only be read.
fn is_read_only<T>(numbers: &[T]) -> bool {
    let start = numbers.as_ptr() as usize;
    let maps = fs::read_to_string("/proc/self/maps").expect("Linux lists what is mapped");
    maps.lines().any(|line| {
        let (range, rest) = line.split_once(' ').expect("a range and more");
        let (from, to) = range.split_once('-').expect("where it begins and ends");
        let [from, to] = [from, to].map(|place| usize::from_str_radix(place, 16).expect("a place"));
        (from..to).contains(&start) && rest.starts_with("r--")
    })
}

/// A store in read-only memory answers as it does elsewhere, whether queries of it are accepted or not.
#[test]
fn a_store_in_read_only_memory() {
    assert!(!is_read_only(&store().table));
    let Lent { table, journal, head, .. } = store();
    let [table, journal] = [table, journal].map(|words| read_only(&words));
    let mut unfit = head;
    unfit[4] = 2;
    let [head, unfit] = [head, unfit].map(|words| read_only_head(&words));
    ask(StoreRef { table, journal, head });
    ask_in_vain(StoreRef { table: &[], journal, head }, 1);
    ask_in_vain(StoreRef { table, journal, head: unfit }, 2);
    ask_in_vain(StoreRef { table: &table[1..], journal, head }, 2);
}

/// The same of the longest table and journal, both full.
#[test]
fn a_full_store_in_read_only_memory() {
    let mut image = vec![0, 0, 0, 0];
    image.extend(8000u16.to_be_bytes());
    image.extend((0..8000).flat_map(|k| entry(2 * k, Some(k)).to_be_bytes()));
    let mut lent = Lent::of_lengths(8000, 4096);
    assert_eq!(lent.lend().load(63, &image), 0);
    for step in 0..64 {
        let list: Vec<u64> = (0..64).map(|k| entry(2 * k + 1, Some(100 * step + k))).collect();
        assert_eq!(lent.lend().commit(&list), 0);
    }
    let [table, journal] = [&lent.table, &lent.journal].map(|words| read_only(words));
    let full = StoreRef { table, journal, head: read_only_head(&lent.head) };
    assert_eq!(look_up(full, DESK, 15_998, 64), (0, 7999, BY_TABLE));
    assert_eq!(look_up(full, FOYER, 127, 1), (0, 63, 1));
    assert_eq!(look_up(full, DESK, 127, 64), (0, 6363, 64));
    assert_eq!(look_up(full, FOYER, 127, 0), (NO_PRICE, UNTOUCHED, BY_TABLE));
    assert_eq!(look_up(full, FOYER, 129, 64), (NO_PRICE, UNTOUCHED, BY_TABLE));
    assert_eq!(written(full, Image, Some(0), 64_006), (0, 64_006, image));
    // State 64 has the 64 odd offers up to 127 beside the even ones, at the prices of the last step.
    let mut tip = vec![0, 0, 0, 64];
    tip.extend(8064u16.to_be_bytes());
    let price = |offer: u32| if offer.is_multiple_of(2) { offer / 2 } else { 6300 + offer / 2 };
    let offers = (0..128).chain((128..16_000).step_by(2));
    tip.extend(offers.flat_map(|offer| entry(offer, Some(price(offer))).to_be_bytes()));
    assert_eq!(written(full, Image, Some(64), 64_518), (0, 64_518, tip.clone()));
    assert_eq!(written(full, Image, None, 64_518), (0, 64_518, tip));
    // Rows 0 to 3 have all seats at state 64, and the other 496 the even ones.
    let mut numbers = vec![64, 500];
    for row in 0..500 {
        numbers.extend([64 * row, if row < 4 { u32::MAX } else { 0xAAAA_AAAA }]);
        let seats = (0..32).filter(|seat| row < 4 || seat % 2 == 0);
        numbers.extend(seats.map(|seat| price(32 * row + seat)));
    }
    let sheet: Vec<u8> = numbers.into_iter().flat_map(u32::to_be_bytes).collect();
    assert_eq!(sheet.len(), 8 + 8 * 500 + 4 * 8064);
    assert_eq!(written(full, Sheet, Some(64), sheet.len()), (0, 36_264, sheet.clone()));
    assert_eq!(written(full, Sheet, None, sheet.len()), (0, 36_264, sheet));
}

/// The list of a commit, the image and the sheet of a load, and the read set and orders of a batch, whether they are accepted or
/// not.
#[test]
fn inputs_in_read_only_memory() {
    let mut lent = store();
    for (list, code) in [([entry(5, Some(1)), entry(7, None)], 0), ([entry(7, None), entry(5, Some(1))], 6)] {
        assert_eq!(lent.lend().commit(read_only(&list)), code);
    }
    for (image, code) in [(&IMAGE[..], 0), (&IMAGE[..21], 15)] {
        assert_eq!(lent.lend().load(0, read_only(image)), code);
    }
    for (sheet, code) in [(&SHEET[..], 0), (&SHEET[..23], 15)] {
        assert_eq!(lent.lend().load_sheet(0, read_only(sheet)), code);
    }
    let (reads, mut out, mut count) = (read_only(&[entry(5, Some(1200))]), [7; 2], UNTOUCHED);
    let order = |kind: u64, amount: u64| kind << 56 | amount << 31 | 5;
    let [raise, cut] = [order(2, 34), order(3, 1201)].map(|order| read_only(&[order]));
    assert_eq!((price_batch(reads, raise, &mut out, &mut count), count), (0, 1));
    assert_eq!((price_batch(reads, cut, &mut out, &mut count), count), (10, 1));
    assert_eq!(out, [entry(5, Some(1234)), 7]);
}
