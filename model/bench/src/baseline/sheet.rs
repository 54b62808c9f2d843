//! Row sheets: state number 32 bits, count of rows 32 bits, then for each row its number 26 bits, six zero bits, a mask of 32 bits
//! with seat 0 most significant, and a price of 32 bits for each set bit; most significant byte first.

use super::word;

/// The bytes before the rows, those before the prices of a row, and those of a price.
const HEADER: usize = 8;
const ROW: usize = 8;
const PRICE: usize = 4;
/// An offer is a row's number and so many bits for the seat; in a sheet so many bits follow the number, all zero.
const SEAT_BITS: u32 = 5;
const SPARE_BITS: u32 = 6;
/// The bit of seat 0.
const FIRST_SEAT: u32 = 1 << 31;

/// The start of a row as it stands in a sheet: its number with the zero bits behind it, and its mask.
#[derive(Clone, Copy)]
struct Start {
    tag: u32,
    mask: u32,
}

impl Start {
    /// The start of the row that bytes begin with, and the bytes behind the row, if its zero bits, its mask and its length are
    /// right.
    fn split(bytes: &[u8]) -> Option<(Start, &[u8])> {
        let (start, behind) = bytes.split_first_chunk::<ROW>()?;
        let start = u64::from_be_bytes(*start);
        let start = Start { tag: (start >> 32) as u32, mask: start as u32 };
        let behind = behind.get(PRICE * start.seats()..)?;
        (start.tag.is_multiple_of(1 << SPARE_BITS) && start.mask != 0).then_some((start, behind))
    }

    fn number(self) -> u32 {
        self.tag >> SPARE_BITS
    }

    /// How many seats have a price.
    fn seats(self) -> usize {
        self.mask.count_ones() as usize
    }

    /// The offers of the seats in the mask, rising.
    fn offers(self) -> impl Iterator<Item = u32> {
        let (first, mut left) = (self.number() << SEAT_BITS, self.mask);
        std::iter::from_fn(move || {
            let seat = left.leading_zeros();
            left &= !FIRST_SEAT.checked_shr(seat)?;
            Some(first | seat)
        })
    }
}

/// A sheet: its state number, how many offers it has, and the bytes of its rows.
pub struct Sheet<'a> {
    pub state: u32,
    pub count: usize,
    rows: &'a [u8],
}

impl<'a> Sheet<'a> {
    /// The sheet that the bytes are, if all rows are right, rise strictly, are as many as it says and fill the bytes.
    pub fn tested(bytes: &'a [u8]) -> Option<Sheet<'a>> {
        let (header, rows) = bytes.split_first_chunk::<HEADER>()?;
        let header = u64::from_be_bytes(*header);
        let (state, row_count) = ((header >> 32) as u32, header as u32);
        let (mut rest, mut least) = (rows, 0);
        for _ in 0..row_count {
            let (start, behind) = Start::split(rest)?;
            if start.number() < least {
                return None;
            }
            (rest, least) = (behind, start.number() + 1);
        }
        // What is not the start of a row is a price.
        let count = (rows.len() / PRICE).checked_sub(row_count as usize * ROW / PRICE)?;
        rest.is_empty().then_some(Sheet { state, count, rows })
    }

    /// Copies the words to the start of the table, for which it has room.
    pub fn read(&self, table: &mut [u64]) {
        let mut numbers =
            self.rows.chunks_exact(PRICE).map(|bytes| u32::from_be_bytes(bytes.try_into().unwrap()));
        let mut words = table.iter_mut();
        while let (Some(tag), Some(mask)) = (numbers.next(), numbers.next()) {
            for offer in (Start { tag, mask }).offers() {
                if let (Some(to), Some(price)) = (words.next(), numbers.next()) {
                    *to = word::put(offer, price);
                }
            }
        }
    }
}

/// The row's number of a word's offer.
fn row(word: u64) -> u32 {
    word::offer(word) >> SEAT_BITS
}

/// The bit of the seat of a word's offer.
fn seat_bit(word: u64) -> u32 {
    FIRST_SEAT >> (word::offer(word) % (1 << SEAT_BITS))
}

/// How many rows a map's words have.
fn rows(words: &[u64]) -> usize {
    usize::from(!words.is_empty()) + words.windows(2).filter(|pair| row(pair[0]) != row(pair[1])).count()
}

/// The length of the sheet of a map's words.
pub fn length(words: &[u64]) -> usize {
    HEADER + ROW * rows(words) + PRICE * words.len()
}

/// Writes the sheet of a state number and a map's words to bytes of its length.
pub fn write(state: u32, words: &[u64], bytes: &mut [u8]) {
    let row_count = (bytes.len() - HEADER - PRICE * words.len()) / ROW;
    let (header, mut rest) = bytes.split_at_mut(HEADER);
    header[..4].copy_from_slice(&state.to_be_bytes());
    header[4..].copy_from_slice(&(row_count as u32).to_be_bytes());
    for of_row in words.chunk_by(|a, b| row(*a) == row(*b)) {
        let (start, behind) = rest.split_at_mut(ROW);
        let (prices, behind) = behind.split_at_mut(PRICE * of_row.len());
        let mask = of_row.iter().fold(0, |mask, &word| mask | seat_bit(word));
        start[..4].copy_from_slice(&(row(of_row[0]) << SPARE_BITS).to_be_bytes());
        start[4..].copy_from_slice(&mask.to_be_bytes());
        for (to, &word) in prices.chunks_exact_mut(PRICE).zip(of_row) {
            to.copy_from_slice(&word::price(word).to_be_bytes());
        }
        rest = behind;
    }
}
