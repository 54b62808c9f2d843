//! Row sheets (request Q-5): what is one, what is none, and that sheet and image of a state load alike.

use model::changes::map_words;
use model::draw::Draw;
use model::format::{Format, FORMATS};
use model::ground::Ground;
use model::head::{Head, Tally};
use model::image;
use model::rng::Rng;
use model::sheet::{length, read, read_rows, write, Fault};
use model::store::Store;
use model::word::entry;
use std::collections::BTreeSet;

/// Numbers of 32 bits as bytes, most significant first.
fn bytes_of(numbers: &[u32]) -> Vec<u8> {
    numbers.iter().flat_map(|number| number.to_be_bytes()).collect()
}

/// The numbers of a sheet, and the offers and prices that it has.
type ByHand = (&'static [u32], &'static [(u32, u32)]);

/// Sheets, worked out by hand.
const SHEETS: [ByHand; 10] = [
    (&[7, 1, 0, 0x0400_0000, 1200], &[(5, 1200)]),
    (&[8, 2, 0, 0x0400_0001, 1200, 4, 0xFFFF_FFC0, 1, 3], &[(5, 1200), (31, 4), (2_147_483_647, 3)]),
    (&[9, 0], &[]),
    (&[0, 0], &[]),
    (&[1, 1, 0, 0xB000_0000, 10, 20, 30], &[(0, 10), (2, 20), (3, 30)]),
    (&[2, 1, 0, 0x8000_0000, 0], &[(0, 0)]),
    (&[u32::MAX, 1, 0xFFFF_FFC0, 0x8000_0000, u32::MAX], &[(2_147_483_616, u32::MAX)]),
    (&[1, 2, 0, 1, 10, 0x40, 0x8000_0000, 20], &[(31, 10), (32, 20)]),
    (&[1, 1, 0x40, 0x8000_0001, 5, 6], &[(32, 5), (63, 6)]),
    (&[3, 3, 0, 1 << 31, 1, 0x100, 1 << 31, 2, 0xFFFF_FFC0, 1, 3], &[(0, 1), (128, 2), (2_147_483_647, 3)]),
];

#[test]
fn sheets_worked_out_by_hand() {
    for (numbers, offers) in SHEETS {
        let bytes = bytes_of(numbers);
        let words: Vec<u64> = offers.iter().map(|&(offer, price)| entry(offer, Some(price))).collect();
        assert_eq!(read(&bytes), Ok((numbers[0], words.clone())), "{numbers:X?}");
        assert_eq!(write(numbers[0], &words), bytes, "{numbers:X?}");
        assert_eq!(length(&words), bytes.len());
    }
}

/// Each seat alone, in the first row, the second and the last, and all seats but that one.
#[test]
fn every_seat() {
    for (row, seat) in [0, 1, (1 << 26) - 1].into_iter().flat_map(|row| (0..32).map(move |seat| (row, seat)))
    {
        let (first, bit) = (row * 32, 0x8000_0000_u32 >> seat);
        let alone = bytes_of(&[4, 1, row * 64, bit, 1000 + seat]);
        let word = entry(first + seat, Some(1000 + seat));
        assert_eq!(read(&alone), Ok((4, vec![word])));
        assert_eq!(write(4, &[word]), alone);
        let others: Vec<u32> = (0..32).filter(|&other| other != seat).collect();
        let bytes = bytes_of(&[&[4, 1, row * 64, !bit], &others[..]].concat());
        let words: Vec<u64> = others.iter().map(|&other| entry(first + other, Some(other))).collect();
        assert_eq!(read(&bytes), Ok((4, words.clone())));
        assert_eq!(write(4, &words), bytes);
    }
    let full = bytes_of(&[&[4, 1, 0, u32::MAX], &[7; 32][..]].concat());
    let words: Vec<u64> = (0..32).map(|offer| entry(offer, Some(7))).collect();
    assert_eq!((full.len(), read(&full)), (144, Ok((4, words))));
}

/// "In a row, the price of a seat stands after as many prices as set bits precede it."
#[test]
fn the_price_of_a_seat() {
    let mut rng = Rng::new(5);
    for _ in 0..300 {
        let (row, mask) = (rng.below(1 << 26) as u32, rng.bits() as u32 | 1);
        let prices: Vec<u32> = (0..mask.count_ones()).map(|_| rng.bits() as u32).collect();
        let bytes = bytes_of(&[&[1, 1, row * 64, mask], &prices[..]].concat());
        let (_, rows) = read_rows(&bytes).expect("a sheet");
        for seat in 0..32 {
            let preceding = (0..seat).filter(|&other| mask >> (31 - other) & 1 == 1).count();
            let price = (mask >> (31 - seat) & 1 == 1).then(|| prices[preceding]);
            assert_eq!(rows[0].seats[seat], price);
        }
    }
}

/// A sheet of three rows: seats 5 and 31 of row 0, seats 0 and 1 of row 6, seat 31 of the last row.
const THREE_ROWS: [u32; 13] =
    [7, 3, 0, 0x0400_0001, 1200, 4, 6 * 64, 0xC000_0000, 0, u32::MAX, 0xFFFF_FFC0, 1, 3];
/// Where in it the prices stand, and the numbers of the rows.
const PRICES: [usize; 5] = [4, 5, 8, 9, 12];
const ROWS: [usize; 3] = [2, 6, 10];

/// Each map with its number has one sheet: what can be read is written the same.
fn read_as_it_is_written(bytes: &[u8]) -> bool {
    match read(bytes) {
        Ok((state, words)) => {
            assert_eq!(write(state, &words), bytes, "{bytes:X?}");
            true
        }
        Err(ground) => {
            assert_eq!(ground, Ground::Image);
            false
        }
    }
}

/// Every bit of the sheet of three rows, damaged alone: it is refused, or is the sheet of another map or of another state. A bit
/// of the state number or of a price makes another sheet, one of the count of rows or of six zero bits none.
#[test]
fn every_damaged_bit() {
    let sheet = bytes_of(&THREE_ROWS);
    let (mut reads, mut refused) = (0, 0);
    for (place, bit) in (0..THREE_ROWS.len()).flat_map(|place| (0..32).map(move |bit| (place, bit))) {
        let mut numbers = THREE_ROWS;
        numbers[place] ^= 1 << bit;
        let bytes = bytes_of(&numbers);
        assert_ne!(bytes, sheet);
        let accepted = read_as_it_is_written(&bytes);
        match place {
            0 => assert!(accepted),
            1 => assert!(!accepted),
            _ if PRICES.contains(&place) => assert!(accepted),
            _ if ROWS.contains(&place) && bit < 6 => {
                assert_eq!(read_rows(&bytes).map_err(|broken| broken.fault), Err(Fault::SpareBits));
            }
            _ => {}
        }
        reads += usize::from(accepted);
        refused += usize::from(!accepted);
    }
    assert_eq!(reads + refused, 13 * 32);
    // The state number and five prices; count and six bits of three rows.
    assert!(reads > 6 * 32 && refused > 32 + 18, "{reads} read, {refused} refused");
}

/// Every two bits of the sheet of its first two rows.
#[test]
fn every_two_damaged_bits() {
    let sheet = bytes_of(&[&[7, 2], &THREE_ROWS[2..10]].concat());
    assert!(read_as_it_is_written(&sheet));
    let bits = sheet.len() * 8;
    let mut reads = 0;
    for (first, second) in (0..bits).flat_map(|first| (0..first).map(move |second| (first, second))) {
        let mut bytes = sheet.clone();
        bytes[first / 8] ^= 1 << (first % 8);
        bytes[second / 8] ^= 1 << (second % 8);
        reads += usize::from(read_as_it_is_written(&bytes));
    }
    assert!(reads > 1000, "{reads}");
}

#[test]
fn every_cut_and_every_added_byte() {
    let sheet = bytes_of(&THREE_ROWS);
    for length in 0..sheet.len() {
        let broken = read_rows(&sheet[..length]).expect_err("it is cut");
        assert_eq!(broken.fault, if length < 8 { Fault::Header } else { Fault::Short }, "{length}");
        assert_eq!(broken.at, length);
        assert_eq!(read(&sheet[..length]), Err(Ground::Image));
    }
    for byte in 0..=255 {
        for count in [1, 2, 3, 4, 8, 12, 16] {
            let longer = [&sheet[..], &vec![byte; count]].concat();
            let broken = read_rows(&longer).expect_err("it goes on");
            assert_eq!((broken.fault, broken.at), (Fault::Long, sheet.len()));
        }
    }
    // A byte taken out anywhere, or put in.
    for at in 0..sheet.len() {
        let mut bytes = sheet.clone();
        bytes.remove(at);
        assert!(!read_as_it_is_written(&bytes));
        bytes.insert(at, sheet[at]);
        assert_eq!(bytes, sheet);
        bytes.insert(at, 0);
        assert!(!read_as_it_is_written(&bytes));
    }
}

#[test]
fn counts_of_rows() {
    let powers = (0..32).map(|power| 1 << power);
    let others = [u32::MAX, u32::MAX - 1, (1 << 31) + 3, (1 << 16) + 3, (1 << 26) + 3];
    for count in (0..=5).chain(powers).chain(others) {
        let mut numbers = THREE_ROWS;
        numbers[1] = count;
        let fault = read_rows(&bytes_of(&numbers)).map(|_| ()).map_err(|broken| broken.fault);
        let wanted = match count {
            3 => Ok(()),
            0..=2 => Err(Fault::Long),
            _ => Err(Fault::Short),
        };
        assert_eq!(fault, wanted, "{count} rows");
    }
    for count in [1, 2, 1 << 31, u32::MAX] {
        assert_eq!(read(&bytes_of(&[7, count])), Err(Ground::Image));
    }
}

/// Rows that stand in another order, twice, parted in two, or without a seat.
#[test]
fn rows_that_are_none() {
    let [low, high] = [&THREE_ROWS[2..6], &THREE_ROWS[6..10]];
    let fault = |rows: &[&[u32]]| {
        let bytes = bytes_of(&[&[7, rows.len() as u32], &rows.concat()[..]].concat());
        read_rows(&bytes).map(|_| ()).map_err(|broken| broken.fault)
    };
    assert_eq!(fault(&[low, high]), Ok(()));
    assert_eq!(fault(&[high, low]), Err(Fault::FallingRows));
    assert_eq!(fault(&[low, low]), Err(Fault::EqualRows));
    assert_eq!(fault(&[high, high]), Err(Fault::EqualRows));
    assert_eq!(fault(&[low, high, low]), Err(Fault::FallingRows));
    assert_eq!(fault(&[&[0, 1 << 26, 1200], &[0, 1, 4], high]), Err(Fault::EqualRows));
    assert_eq!(fault(&[&[0, 0]]), Err(Fault::NoSeat));
    assert_eq!(fault(&[&[0, 0, 1200]]), Err(Fault::NoSeat));
    assert_eq!(fault(&[low, &[0x40, 0], high]), Err(Fault::NoSeat));
    for bits in 1..64 {
        assert_eq!(fault(&[&[bits, 1, 4]]), Err(Fault::SpareBits));
        assert_eq!(fault(&[low, &[0xFFFF_FFC0 | bits, 1, 4]]), Err(Fault::SpareBits));
    }
}

/// Sheets of random maps, those with some damaged bits among them, and bytes of which every number is likely in a sheet.
#[test]
fn what_can_be_read_is_written_the_same() {
    let mut reads = 0;
    for seed in 0..3000 {
        let mut draw = Draw::new(seed);
        let (state, words) = (draw.number(), draw.map(60));
        let mut bytes = write(state, &words);
        assert_eq!(bytes.len(), length(&words));
        assert_eq!(read(&bytes), Ok((state, words)));
        for _ in 0..draw.rng.within(1, 3) {
            let at = draw.rng.below(bytes.len());
            bytes[at] ^= 1 << draw.rng.below(8);
        }
        reads += usize::from(read_as_it_is_written(&bytes));
    }
    assert!((500..2500).contains(&reads), "{reads}");
    let mut rng = Rng::new(9);
    let mut reads = 0;
    for _ in 0..100_000 {
        let numbers: Vec<u32> =
            (0..rng.within(2, 9)).map(|_| rng.pick(&[0, 1, 1, 2, 64, 1 << 31, 0xFFFF_FFC0])).collect();
        reads += usize::from(read_as_it_is_written(&bytes_of(&numbers)));
    }
    assert!(reads > 1000, "{reads}");
}

/// No bytes are a sheet and an image both: a sheet of the fewest rows with which its count could be an image's is longer.
#[test]
fn a_sheet_is_no_image() {
    for seed in 0..500 {
        let mut draw = Draw::new(seed);
        let (state, words) = (draw.number(), draw.map(100));
        assert_eq!(image::read(&write(state, &words)), Err(Ground::Image));
        assert_eq!(read(&image::write(state, &words)), Err(Ground::Image));
    }
}

/// A store with steps over its table, some of them flushed, and memory that was used before.
fn random_store(draw: &mut Draw) -> Store {
    let mut store = Store::of_lengths(draw.rng.within(20, 200), draw.rng.within(50, 400));
    let format = draw.rng.pick(&FORMATS);
    let words = draw.map(store.table.len());
    assert_eq!(store.load(0, format, &format.write(draw.number() / 2, &words)), Ok(()));
    for _ in 0..draw.rng.within(0, 12) {
        let _ = store.commit(&draw.changes());
        if draw.rng.percent(20) {
            let state = draw.state(&store.head);
            let _ = store.flush(state);
        }
    }
    store
}

/// Sheet and image of every kept state of random stores, each loaded elsewhere, into memory and a head that hold anything:
/// outcome, head, tally and all memory are the same, and the map is the state's.
#[test]
fn sheet_and_image_load_alike() {
    let (mut states, mut refused, mut lengths) = (0, 0, BTreeSet::new());
    for seed in 0..150 {
        let mut draw = Draw::new(seed);
        let store = random_store(&mut draw);
        for state in store.head.checkpoint..=store.head.tip {
            let map = store.map_at(state);
            let room = draw.rng.pick(&[map.len() + 5, map.len(), map.len().saturating_sub(1)]).max(1);
            let mut elsewhere = Store::of_lengths(room, draw.rng.within(1, 9));
            elsewhere.table.fill(draw.rng.bits());
            elsewhere.journal.fill(draw.rng.bits());
            elsewhere.head.tip = 5;
            elsewhere.head.held[3] = true;
            elsewhere.head.depth = draw.depth();
            let depth = draw.allowed_depth();
            elsewhere.tally = Tally { committed: 1, rolled_back: 2, flushed: 3 };
            let before = elsewhere.clone();
            let [image, sheet] = FORMATS.map(|format| {
                let mut bytes = vec![0xEE; format.length(&map_words(&map))];
                assert_eq!(store.write(format, Some(state), &mut bytes), Ok(bytes.len()));
                let mut elsewhere = elsewhere.clone();
                let outcome = elsewhere.load(depth, format, &bytes);
                lengths.insert((format, bytes.len()));
                (outcome, elsewhere)
            });
            assert_eq!(sheet, image, "seed {seed}, state {state}");
            let (outcome, loaded) = sheet;
            if map.len() > room {
                assert_eq!((outcome, loaded), (Err(Ground::TableFull), before));
                refused += 1;
            } else {
                assert_eq!(outcome, Ok(()));
                assert_eq!(loaded.head, Head::at_rest(state, map.len() as u64, depth));
                assert_eq!((loaded.map_at(state), loaded.tally), (map, Tally::default()));
                assert!(loaded.journal.iter().all(|&word| word == 0));
            }
            states += 1;
        }
    }
    assert!(states > 500 && refused > 100, "{states} states, {refused} of them refused");
    assert!(lengths.len() > 50, "{} images and sheets of different lengths", lengths.len());
}

/// Full size: 12,096 offers, each in a row of its own, and 12,096 in rows of all seats.
#[test]
fn the_longest_sheets() {
    let words = |rise: u32| -> Vec<u64> { (0..12_096).map(|k| entry(rise * k, Some(k))).collect() };
    for (rise, bytes) in [(1, 8 + 378 * 8 + 4 * 12_096), (32, 8 + 12 * 12_096), (177_536, 145_160)] {
        let sheet = write(64, &words(rise));
        assert_eq!(sheet.len(), bytes);
        assert_eq!(read(&sheet), Ok((64, words(rise))));
        assert_eq!(Store::of_lengths(8000, 1).load(0, Format::Sheet, &sheet), Err(Ground::TableFull));
        let shorter = write(64, &words(rise)[..8000]);
        let mut store = Store::of_lengths(8000, 1);
        assert_eq!(store.load(0, Format::Sheet, &shorter), Ok(()));
        assert_eq!(store.table, words(rise)[..8000]);
    }
}
