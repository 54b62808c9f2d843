//! Row sheets (request Q-5): the prices of a state by row, 32 seats to a row, where offer = row × 32 + seat.
//!
//! A sheet is a state number of 32 bits and a count of rows of 32 bits, then for each row: its number 26 bits, six zero bits, a
//! mask of 32 bits with seat 0 most significant, then one price of 32 bits per set bit in seat order, all most significant byte
//! first. Rows rise strictly and no mask is zero. A map without offers has no rows: its sheet is 8 bytes.

use crate::ground::Ground;
use crate::word;
use std::fmt;

/// The seats of a row.
pub const SEATS: usize = 32;

/// The bytes before the rows: state number and count of rows.
pub const HEADER: usize = 8;

/// The bits of a row's first number that follow its 26 bits, and must be zero.
const SPARE_BITS: u32 = 6;

/// A row: its number, and the price of each seat that has one.
#[derive(Clone, Copy, Debug, PartialEq, Eq)]
pub struct Row {
    pub number: u32,
    pub seats: [Option<u32>; SEATS],
}

impl Row {
    /// The row without any price, which no sheet has.
    pub fn of_number(number: u32) -> Row {
        Row { number, seats: [None; SEATS] }
    }

    /// The bits of the seats with a price, that of seat 0 first.
    fn mask(&self) -> u32 {
        self.seats.iter().fold(0, |mask, price| mask << 1 | u32::from(price.is_some()))
    }

    /// The seats with a price, rising, and the prices.
    pub fn priced(&self) -> impl Iterator<Item = (usize, u32)> + '_ {
        self.seats.iter().enumerate().filter_map(|(seat, price)| Some((seat, (*price)?)))
    }

    /// The row's bytes in a sheet: number, mask, and the prices in seat order.
    pub fn bytes(&self) -> Vec<u8> {
        let mut numbers = vec![self.number << SPARE_BITS, self.mask()];
        numbers.extend(self.priced().map(|(_, price)| price));
        numbers.into_iter().flat_map(u32::to_be_bytes).collect()
    }

    /// The words of the row's offers, rising.
    fn words(&self) -> impl Iterator<Item = u64> + '_ {
        let offer = |seat: usize| self.number * SEATS as u32 + seat as u32;
        self.priced().map(move |(seat, price)| word::entry(offer(seat), Some(price)))
    }
}

/// The rows of a map, given as its words.
pub fn rows_of(words: &[u64]) -> Vec<Row> {
    let mut rows: Vec<Row> = Vec::new();
    for &word in words {
        let (number, seat) = (word::offer(word) / SEATS as u32, word::offer(word) as usize % SEATS);
        if rows.last().is_none_or(|last| last.number != number) {
            rows.push(Row::of_number(number));
        }
        if let Some(last) = rows.last_mut() {
            last.seats[seat] = Some(word::price(word));
        }
    }
    rows
}

/// The sheet of a map, given as its words.
pub fn write(state: u32, words: &[u64]) -> Vec<u8> {
    let rows = rows_of(words);
    let mut bytes = header(state, rows.len() as u32);
    bytes.extend(rows.iter().flat_map(Row::bytes));
    bytes
}

/// The bytes before the rows.
pub fn header(state: u32, rows: u32) -> Vec<u8> {
    [state.to_be_bytes(), rows.to_be_bytes()].concat()
}

/// The length of the sheet of a map: two numbers for the header and for each row, and one for each price.
pub fn length(words: &[u64]) -> usize {
    HEADER + 8 * rows_of(words).len() + 4 * words.len()
}

/// The state number and the words of a sheet, or ground 15.
pub fn read(bytes: &[u8]) -> Result<(u32, Vec<u64>), Ground> {
    let (state, rows) = read_rows(bytes).map_err(|_| Ground::Image)?;
    Ok((state, rows.iter().flat_map(Row::words).collect()))
}

/// The state number and the rows of a sheet, or what is wrong with it first.
pub fn read_rows(bytes: &[u8]) -> Result<(u32, Vec<Row>), Broken> {
    let mut numbers = Numbers { bytes, at: 0 };
    let state = numbers.next(Fault::Header)?;
    let count = numbers.next(Fault::Header)?;
    let mut rows: Vec<Row> = Vec::new();
    for _ in 0..count {
        let row = read_row(&mut numbers, rows.last())?;
        rows.push(row);
    }
    numbers.end()?;
    Ok((state, rows))
}

/// The next row, which must be above the last one: its seats in order, each with the next price if its bit is set.
fn read_row(numbers: &mut Numbers, last: Option<&Row>) -> Result<Row, Broken> {
    let start = numbers.at;
    let first = numbers.next(Fault::Short)?;
    let mut row = Row::of_number(first >> SPARE_BITS);
    unless(first % (1 << SPARE_BITS) == 0, Fault::SpareBits, start)?;
    unless(last.is_none_or(|last| last.number != row.number), Fault::EqualRows, start)?;
    unless(last.is_none_or(|last| last.number < row.number), Fault::FallingRows, start)?;
    let mask = numbers.next(Fault::Short)?;
    unless(mask != 0, Fault::NoSeat, start + 4)?;
    for (seat, price) in row.seats.iter_mut().enumerate() {
        if mask << seat >> (SEATS - 1) == 1 {
            *price = Some(numbers.next(Fault::Short)?);
        }
    }
    Ok(row)
}

/// Numbers of 32 bits, most significant byte first, taken one after another.
struct Numbers<'a> {
    bytes: &'a [u8],
    at: usize,
}

impl Numbers<'_> {
    /// The next number; where fewer than four bytes are left, that is the fault.
    fn next(&mut self, fault: Fault) -> Result<u32, Broken> {
        let four = self.bytes.get(self.at..self.at + 4).ok_or(Broken { fault, at: self.bytes.len() })?;
        self.at += 4;
        Ok(four.iter().fold(0, |number, &byte| number << 8 | u32::from(byte)))
    }

    /// All bytes have been taken.
    fn end(&self) -> Result<(), Broken> {
        unless(self.at == self.bytes.len(), Fault::Long, self.at)
    }
}

fn unless(test: bool, fault: Fault, at: usize) -> Result<(), Broken> {
    if test {
        Ok(())
    } else {
        Err(Broken { fault, at })
    }
}

/// What is wrong with bytes that are no sheet.
#[derive(Clone, Copy, Debug, PartialEq, Eq, PartialOrd, Ord)]
pub enum Fault {
    /// There are fewer than 8 bytes.
    Header,
    /// The bytes end before the last row does.
    Short,
    /// Bytes follow the last row.
    Long,
    /// The six bits after a row's number are not all zero.
    SpareBits,
    /// A row has the number of the row before it.
    EqualRows,
    /// A row's number is below that of the row before it.
    FallingRows,
    /// The mask of a row is zero.
    NoSeat,
}

/// All faults.
pub const FAULTS: [Fault; 7] = [
    Fault::Header,
    Fault::Short,
    Fault::Long,
    Fault::SpareBits,
    Fault::EqualRows,
    Fault::FallingRows,
    Fault::NoSeat,
];

/// A fault, and the index of the byte where it shows.
#[derive(Clone, Copy, Debug, PartialEq, Eq)]
pub struct Broken {
    pub fault: Fault,
    pub at: usize,
}

impl fmt::Display for Broken {
    fn fmt(&self, f: &mut fmt::Formatter<'_>) -> fmt::Result {
        let what = match self.fault {
            Fault::Header => "the bytes end before state number and count of rows do",
            Fault::Short => "the bytes end before the last row does",
            Fault::Long => "bytes follow the last row",
            Fault::SpareBits => "the six bits after the row's number are not zero",
            Fault::EqualRows => "the row has the number of the row before it",
            Fault::FallingRows => "the row's number is below that of the row before it",
            Fault::NoSeat => "the row's mask is zero",
        };
        write!(f, "at byte {}, {what}", self.at)
    }
}
