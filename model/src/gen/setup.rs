//! Lending memory, and images and sheets to load.

use super::Generator;
use crate::format::{Format, FORMATS};
use crate::image;
use crate::script::{Command, HeadField, Memory, Poke, BYTES, LIST_WORDS};
use crate::sheet::{self, SEATS};
use crate::store::{JOURNAL_WORDS, TABLE_WORDS};
use crate::unit::Call;
use crate::word;

/// So many offers, or fewer, are written out in a script one by one.
const FEW: usize = 200;

impl Generator {
    /// Lends table and journal anew, at times first with lengths out of range, and fills them.
    pub(super) fn set_up(&mut self) {
        if self.draw.rng.percent(25) {
            self.lend_out_of_range();
            let count = self.draw.rng.within(1, 14);
            self.any_calls(count);
        }
        let (table, journal) = (self.table_length(), self.journal_length());
        self.lend(table, journal);
        self.draw.new_pool();
        match self.draw.rng.below(6) {
            0 => {
                let depth = self.draw.depth();
                self.call(Call::Clear { depth });
            }
            1 => self.poke_a_store(),
            2 | 3 => self.load_to_the_brim(),
            _ => self.load_some(),
        }
    }

    fn lend(&mut self, table: usize, journal: usize) {
        self.emit(Command::Lend { memory: Memory::Table, length: table as u64 });
        self.emit(Command::Lend { memory: Memory::Journal, length: journal as u64 });
    }

    /// Lengths in range, the shortest and the longest often.
    fn table_length(&mut self) -> usize {
        match self.draw.rng.weighted(&[10, 50, 25, 5, 5]) {
            0 => 1,
            1 => self.draw.rng.within(2, 8),
            2 => self.draw.rng.within(9, 150),
            3 => TABLE_WORDS,
            _ => self.draw.rng.within(151, TABLE_WORDS),
        }
    }

    fn journal_length(&mut self) -> usize {
        match self.draw.rng.weighted(&[10, 40, 30, 10, 5]) {
            0 => 1,
            1 => self.draw.rng.within(2, 60),
            2 => self.draw.rng.within(61, 400),
            3 => JOURNAL_WORDS,
            _ => self.draw.rng.within(401, JOURNAL_WORDS),
        }
    }

    /// Lengths of which one or both are out of range.
    fn lend_out_of_range(&mut self) {
        let table = self.draw.rng.pick(&[0, TABLE_WORDS + 1, 8192]);
        let journal = self.draw.rng.pick(&[0, JOURNAL_WORDS + 1, 4608]);
        match self.draw.rng.below(3) {
            0 => {
                let journal = self.journal_length();
                self.lend(table, journal);
            }
            1 => {
                let table = self.table_length();
                self.lend(table, journal);
            }
            _ => self.lend(table, journal),
        }
    }

    /// Writes a sound store of one state by hand, head and all.
    fn poke_a_store(&mut self) {
        let words = self.draw.map(self.unit.store.table.len().min(LIST_WORDS));
        let state = self.draw.number();
        if !words.is_empty() {
            self.emit(Command::Poke { at: 0, poke: Poke::Table(words.clone()) });
        }
        self.emit(Command::Head(HeadField::Used(words.len() as u64)));
        let depth = HeadField::Depth(self.draw.allowed_depth());
        for field in [HeadField::Oldest(state), HeadField::Checkpoint(state), HeadField::Tip(state), depth] {
            self.emit(Command::Head(field));
        }
        let head = self.unit.store.head.clone();
        for slot in (0..head.held.len()).filter(|&slot| head.held[slot] || head.issued[slot] != 0) {
            self.emit(Command::Head(HeadField::Held(slot, false)));
            self.emit(Command::Head(HeadField::Issued(slot, 0)));
        }
        for mark in (0..head.ends.len()).filter(|&mark| head.ends[mark] != 0) {
            self.emit(Command::Head(HeadField::Ends(mark, 0)));
        }
    }

    /// Loads an image or a sheet with some offers of the pool.
    fn load_some(&mut self) {
        let format = self.draw.rng.pick(&FORMATS);
        let words = self.draw.map(self.unit.store.table.len());
        let bytes = format.write(self.draw.number(), &words);
        self.lend_bytes(&bytes);
        let depth = self.draw.depth();
        self.call(Call::Load { depth, format });
    }

    /// Loads an image or a sheet that has as many offers as the table has words, one more or one less.
    fn load_to_the_brim(&mut self) {
        let format = self.draw.rng.pick(&FORMATS);
        let table = self.unit.store.table.len();
        let count = self.draw.rng.pick(&[table, table, table - 1, table + 1]);
        self.lend_series(format, count);
        let depth = self.draw.depth();
        self.call(Call::Load { depth, format });
    }

    /// Lends bytes and writes them there.
    pub(super) fn lend_bytes(&mut self, bytes: &[u8]) {
        self.emit(Command::Lend { memory: Memory::Bytes, length: bytes.len() as u64 });
        self.poke_bytes(0, bytes);
    }

    /// Writes bytes from an index on.
    fn poke_bytes(&mut self, at: usize, bytes: &[u8]) {
        for (index, part) in bytes.chunks(LIST_WORDS).enumerate() {
            let at = (at + index * LIST_WORDS) as u64;
            self.emit(Command::Poke { at, poke: Poke::Bytes(part.to_vec()) });
        }
    }

    /// Lends an image or a sheet of so many offers that rise by a step.
    pub(super) fn lend_series(&mut self, format: Format, count: usize) {
        match format {
            Format::Image => self.lend_image_series(count),
            Format::Sheet if count <= FEW => self.lend_sheet_series(count),
            Format::Sheet => self.lend_full_rows(count),
        }
    }

    /// Lends a sheet of few offers that rise by a step: some in each row, all in it, or one.
    fn lend_sheet_series(&mut self, count: usize) {
        let first = self.draw.rng.below(40) as u32;
        let rise = self.draw.rng.pick(&[1, 1, 2, 31, 32, 33]);
        let words: Vec<u64> =
            (0..count as u32).map(|k| word::entry(first + rise * k, Some(self.draw.price()))).collect();
        let bytes = sheet::write(self.draw.number(), &words);
        self.lend_bytes(&bytes);
    }

    /// Lends a sheet of many offers: rows with all their seats, the last with those that are left; each at its number as price.
    fn lend_full_rows(&mut self, count: usize) {
        let offers: Vec<u64> = (0..count as u32).map(|offer| word::entry(offer, Some(offer))).collect();
        let length = sheet::length(&offers);
        self.emit(Command::Lend { memory: Memory::Bytes, length: length as u64 });
        let rows = sheet::rows_of(&offers);
        let header = sheet::header(self.draw.number(), rows.len() as u32);
        self.poke_bytes(0, &header);
        let mut at = header.len();
        for row in rows {
            let bytes = row.bytes();
            let (start, prices) = bytes.split_at(8);
            self.poke_bytes(at, start);
            at += start.len();
            if prices.len() == 4 * SEATS {
                // Two prices to a word.
                let (first, count) = (u64::from(row.number) * SEATS as u64, SEATS as u64 / 2);
                let (word, rise) = (first << 32 | (first + 1), 2 << 32 | 2);
                self.emit(Command::Fill { memory: Memory::Bytes, at: at as u64, count, word, rise });
            } else {
                self.poke_bytes(at, prices);
            }
            at += prices.len();
        }
    }

    /// Lends an image of so many offers that rise by a step, with rising prices.
    fn lend_image_series(&mut self, count: usize) {
        let length = image::length(count).min(BYTES as usize);
        self.emit(Command::Lend { memory: Memory::Bytes, length: length as u64 });
        let header = image::write(self.draw.number(), &[])[..4].to_vec();
        let header = [header, (count as u16).to_be_bytes().to_vec()].concat();
        self.emit(Command::Poke { at: 0, poke: Poke::Bytes(header) });
        let word = word::entry(self.draw.rng.below(4) as u32, Some(self.draw.price()));
        let rise = word::entry(self.draw.rng.within(1, 3) as u32, None) | self.draw.rng.below(2) as u64;
        self.emit(Command::Fill { memory: Memory::Bytes, at: 6, count: count as u64, word, rise });
    }

    /// Lends bytes of a length, none of them zero.
    pub(super) fn lend_output(&mut self, length: usize) {
        let length = length.min(BYTES as usize);
        self.emit(Command::Lend { memory: Memory::Bytes, length: length as u64 });
        let (words, rest) = (length / 8, length % 8);
        let word = 0xEEEE_EEEE_EEEE_EEEE;
        self.emit(Command::Fill { memory: Memory::Bytes, at: 0, count: words as u64, word, rise: 0 });
        if rest > 0 {
            self.emit(Command::Poke { at: words as u64 * 8, poke: Poke::Bytes(vec![0xDD; rest]) });
        }
    }
}
