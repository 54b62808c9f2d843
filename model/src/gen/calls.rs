//! Drawing calls and what they are lent.

use super::Generator;
use crate::batch::{order, priced, ORDERS};
use crate::caller::Caller;
use crate::changes::{changes_of, map_words, words_of, Changes};
use crate::format::{Format, FORMATS};
use crate::image;
use crate::script::LIST_WORDS;
use crate::sheet::{self, Row};
use crate::store::STATE_OFFERS;
use crate::unit::Call;
use crate::word;

/// How often each call is drawn, in the order of [`Generator::one_call`]. What begins a store anew is rare, so that stores live
/// long enough for open slots to fall behind the checkpoint and for steps to run out.
pub(super) const WEIGHTS: [usize; 12] = [1, 9, 38, 3, 100, 24, 44, 70, 52, 40, 10, 40];

/// The same on damaged memory and on memory of wrong lengths: each call, but seldom one that mends the store.
pub(super) const EVEN: [usize; 12] = [2, 2, 12, 4, 4, 4, 4, 4, 4, 4, 4, 2];

/// Amounts are numbers below this.
const AMOUNTS: usize = 1 << 25;

/// The indices of some calls.
pub(super) const WRITE: usize = 2;
pub(super) const COMMIT: usize = 4;
pub(super) const FLUSH: usize = 6;
pub(super) const LOOK_UP: usize = 7;
pub(super) const ISSUE: usize = 8;

impl Generator {
    /// One call, by its index in [`WEIGHTS`].
    pub(super) fn one_call(&mut self, which: usize) {
        let call = match which {
            0 => Call::Clear { depth: self.draw.depth() },
            1 => self.load(),
            WRITE => self.write(),
            3 => self.restart(),
            COMMIT => Call::Commit { list: self.list_for_commit() },
            5 => Call::RollBack { state: self.state() },
            FLUSH => Call::Flush { state: self.draw.state_to_flush(&self.unit.store.head) },
            LOOK_UP => self.look_up(),
            ISSUE => self.issue(),
            9 => self.forward(),
            10 => self.release(),
            _ => self.batch(),
        };
        self.call(call);
    }

    fn state(&mut self) -> u32 {
        self.draw.state(&self.unit.store.head)
    }

    fn slot(&mut self, open: bool) -> (Caller, u64) {
        self.draw.slot(&self.unit.store.head.held, open)
    }

    fn offer(&mut self) -> u32 {
        let offer = self.draw.offer_in(&self.unit.store);
        match self.draw.rng.below(15) {
            0 => offer + word::OFFERS,
            1 => self.draw.rng.pick(&[0, word::OFFERS - 1, word::OFFERS, u32::MAX]),
            _ => offer,
        }
    }

    /// A list of changes, at times with words that leave the tip as it is, or words that are no list.
    fn list_for_commit(&mut self) -> Vec<u64> {
        let store = &self.unit.store;
        match self.draw.rng.weighted(&[73, 20, 7]) {
            0 => self.draw.changes(),
            1 if store.is_sound() => self.draw.repeats(&store.map_at(store.head.tip)),
            1 => self.draw.changes(),
            _ => self.draw.broken_list(),
        }
    }

    fn look_up(&mut self) -> Call {
        Call::LookUp { caller: self.draw.caller(), offer: self.offer(), state: self.state() }
    }

    fn issue(&mut self) -> Call {
        let (caller, slot) = self.slot(false);
        let list = match self.draw.rng.weighted(&[84, 8, 8, edges(caller)]) {
            0 => self.draw.questions(),
            1 => self.draw.changes(),
            2 => self.draw.broken_list(),
            _ => self.draw.edge_questions(),
        };
        Call::Issue { caller, slot, list }
    }

    fn forward(&mut self) -> Call {
        let ((caller, slot), state) = (self.slot(true), self.state());
        let with = match self.draw.rng.weighted(&[70, 20, 10, edges(caller)]) {
            0 => None,
            1 => Some(self.draw.changes()),
            2 => Some(self.draw.broken_list()),
            _ => Some(self.draw.edge_changes()),
        };
        Call::Forward { caller, slot, state, with }
    }

    fn release(&mut self) -> Call {
        let (caller, slot) = self.slot(true);
        Call::Release { caller, slot }
    }

    /// An image or a sheet of a state that is named, or of none.
    fn write(&mut self) -> Call {
        let format = self.draw.rng.pick(&FORMATS);
        let state = if self.draw.rng.percent(65) { Some(self.state()) } else { None };
        self.output_for(format, state.unwrap_or(self.unit.store.head.tip));
        Call::Write { format, state }
    }

    fn restart(&mut self) -> Call {
        self.output_for(Format::Image, self.unit.store.head.checkpoint);
        Call::Restart
    }

    /// Lends bytes for the image or the sheet of a state: as many as it needs, some more, too few, fewer than any has, or as many
    /// as another state's needs.
    fn output_for(&mut self, format: Format, state: u32) {
        let exact = self.length_of(format, state);
        let length = match self.draw.rng.weighted(&[36, 18, 18, 8, 5, 10, 5]) {
            0 => exact,
            1 => exact + self.draw.rng.within(1, 20),
            2 => exact - 1,
            3 => self.draw.rng.below(exact),
            4 => self.draw.rng.below(format.fewest_bytes()),
            5 => {
                let head = &self.unit.store.head;
                let other = self.draw.rng.pick(&[head.checkpoint, head.tip]);
                self.length_of(format, other)
            }
            _ => return,
        };
        self.lend_output(length);
    }

    /// The length of a state's image or sheet. A state that is not kept has none, nor has any of a store that is not sound; then
    /// it is the most that the head's count gives.
    fn length_of(&self, format: Format, state: u32) -> usize {
        let store = &self.unit.store;
        if store.is_sound() && store.keeps(state) {
            return format.length(&map_words(&store.map_at(state)));
        }
        format.most_bytes(store.head.used.min(STATE_OFFERS as u64) as usize)
    }

    /// Lends an image or a sheet, often a broken one, to be loaded.
    fn load(&mut self) -> Call {
        let format = self.draw.rng.pick(&FORMATS);
        let table = self.unit.store.table.len();
        match self.draw.rng.weighted(&[45, 35, 12, 8]) {
            0 => {
                let words = self.draw.map(table.min(100));
                let bytes = format.write(self.draw.number(), &words);
                self.lend_bytes(&bytes);
            }
            1 => {
                let bytes = self.broken(format);
                self.lend_bytes(&bytes);
            }
            2 => {
                let count =
                    self.draw.rng.pick(&[table + 1, table + 1, table + 1, table, table, STATE_OFFERS]);
                self.lend_series(format, count);
            }
            _ => self.written_before(format),
        }
        Call::Load { depth: self.draw.depth(), format }
    }

    /// Has the image or the sheet of a state written into bytes that are just enough.
    fn written_before(&mut self, format: Format) {
        let state = self.state();
        let length = self.length_of(format, state);
        self.lend_output(length);
        self.call(Call::Write { format, state: Some(state) });
    }

    /// An image or a sheet with something wrong in it.
    fn broken(&mut self, format: Format) -> Vec<u8> {
        match format {
            Format::Image => self.broken_image(),
            Format::Sheet => self.broken_sheet(),
        }
    }

    /// An image with something wrong in it.
    fn broken_image(&mut self) -> Vec<u8> {
        let offer = self.draw.offer();
        let price = Some(self.draw.price());
        let two = |first, second| vec![word::entry(first, price), word::entry(second, price)];
        let next = (offer + 1) % word::OFFERS;
        let words = match self.draw.rng.below(8) {
            0 => two(offer, offer),
            1 => two(offer.max(next), offer.min(next)),
            2 => vec![word::entry(offer, None)],
            3 => vec![word::entry(offer, price) % (1 << 63)],
            _ => self.draw.map(20),
        };
        let mut bytes = image::write(self.draw.number(), &words);
        match self.draw.rng.below(8) {
            0 => bytes.push(0),
            1 => bytes.truncate(bytes.len() - 1),
            2 => bytes.truncate(self.draw.rng.below(7)),
            3 => bytes[5] = bytes[5].wrapping_add(1),
            4 => bytes[5] = bytes[5].wrapping_sub(1),
            5 => bytes[4] = 1,
            6 => {
                let at = self.draw.rng.below(bytes.len());
                bytes[at] ^= 1 << self.draw.rng.below(8);
            }
            _ => {}
        }
        bytes
    }

    /// A sheet with something wrong in it: in its rows, or in its count and length.
    fn broken_sheet(&mut self) -> Vec<u8> {
        let mut words = self.draw.map(20);
        if words.is_empty() {
            words.push(word::entry(self.draw.offer(), Some(self.draw.price())));
        }
        let rows = sheet::rows_of(&words);
        let rows = if self.draw.rng.percent(50) { self.broken_rows(rows) } else { rows };
        let mut bytes = sheet::header(self.draw.number(), rows.len() as u32);
        bytes.extend(rows.iter().flat_map(Row::bytes));
        self.perhaps_damaged(&mut bytes);
        bytes
    }

    /// Rows of which one has no seat, stands twice, is parted in two, or stands before a lower one.
    fn broken_rows(&mut self, mut rows: Vec<Row>) -> Vec<Row> {
        let at = self.draw.rng.below(rows.len());
        match self.draw.rng.below(4) {
            0 => rows[at] = Row::of_number(rows[at].number),
            1 => rows.insert(at, rows[at]),
            2 => {
                let mut first = rows[at];
                let middle = self.draw.rng.below(sheet::SEATS);
                first.seats[middle..].fill(None);
                rows[at].seats[..middle].fill(None);
                rows.insert(at, first);
            }
            _ => {
                let mut lower = rows[at];
                lower.number = self.draw.rng.below(lower.number as usize) as u32;
                rows.insert(at + 1, lower);
            }
        }
        rows
    }

    /// Changes the length of a sheet, its count of rows, the six bits of its first row, or any bit; or nothing.
    fn perhaps_damaged(&mut self, bytes: &mut Vec<u8>) {
        let count = u32::from_be_bytes([bytes[4], bytes[5], bytes[6], bytes[7]]);
        let counts = [0, count - 1, count + 1, count + (1 << 24), 1 << 31, u32::MAX];
        match self.draw.rng.weighted(&[3, 2, 1, 4, 2, 3, 3]) {
            0 => {
                let more = self.draw.rng.pick(&[1, 3, 4, 8, 12]);
                bytes.extend((0..more).map(|_| self.draw.rng.bits() as u8));
            }
            1 => bytes.truncate(bytes.len() - self.draw.rng.within(1, 8)),
            2 => bytes.truncate(self.draw.rng.below(sheet::HEADER)),
            3 => bytes[4..8].copy_from_slice(&self.draw.rng.pick(&counts).to_be_bytes()),
            4 => bytes[sheet::HEADER + 3] |= self.draw.rng.within(1, 63) as u8,
            5 => {
                let at = self.draw.rng.below(bytes.len());
                bytes[at] ^= 1 << self.draw.rng.below(8);
            }
            _ => {}
        }
    }

    // Batches.

    /// A batch: orders that run, and then perhaps something wrong, or two things.
    fn batch(&mut self) -> Call {
        let mut now = self.draw.read_set();
        let mut reads = words_of(&now);
        let count = match self.draw.rng.weighted(&[10, 80, 10]) {
            0 => 0,
            1 => self.draw.rng.within(1, 8),
            _ => ORDERS,
        };
        let mut orders: Vec<u64> = (0..count).map(|_| self.order_that_runs(&mut now)).collect();
        let wrongs = self.draw.rng.weighted(&[50, 40, 10]);
        for _ in 0..wrongs {
            self.spoil(&mut reads, &mut orders, &now);
        }
        let named = priced(&reads, &orders).map_or(orders.len().min(5), |words| words.len());
        let length = match self.draw.rng.weighted(&[40, 40, 20]) {
            0 => named,
            1 => named + self.draw.rng.within(1, 4),
            _ => self.draw.rng.below(named + 1),
        };
        let output = (0..length).map(|_| self.draw.rng.bits()).collect();
        Call::PriceBatch { reads, orders, output }
    }

    /// An order on a read offer that does not fail, and the price after it.
    fn order_that_runs(&mut self, now: &mut Changes) -> u64 {
        let offers: Vec<u32> = now.keys().copied().collect();
        let offer = self.draw.rng.pick(&offers);
        let (kind, amount) = match now[&offer] {
            None => (0, self.amount()),
            Some(price) => self.kind_and_amount(price),
        };
        let word = order(kind, amount, offer);
        let after = priced(&words_of(now), &[word]).unwrap_or_default();
        now.extend(changes_of(&after));
        word
    }

    /// The kind and the amount of an order that does not fail at a price: more often than not of sixteenths.
    fn kind_and_amount(&mut self, price: u32) -> (u8, u32) {
        let amount = self.amount();
        match self.draw.rng.weighted(&[1, 1, 1, 1, 5]) {
            0 => (0, amount),
            1 => (1, 0),
            2 => (2, amount.min(u32::MAX - price)),
            3 => (3, amount.min(price)),
            _ => self.sixteenths(price),
        }
    }

    /// Any of the kinds that keep sixteenths of a price, and an amount: none, one within two units of what is kept, or any.
    fn sixteenths(&mut self, price: u32) -> (u8, u32) {
        let kind = self.draw.rng.within(16, 31);
        let kept = price as usize * (kind - 15) / 16;
        let amount = match self.draw.rng.weighted(&[3, 4, 3]) {
            0 => 0,
            1 => self.draw.rng.within(kept.saturating_sub(1), kept + 2).min(AMOUNTS - 1) as u32,
            _ => self.amount(),
        };
        (kind as u8, amount)
    }

    /// An amount of 25 bits, its ends often.
    fn amount(&mut self) -> u32 {
        match self.draw.rng.below(5) {
            0 => 0,
            1 => AMOUNTS as u32 - 1,
            2 => self.draw.rng.below(AMOUNTS) as u32,
            _ => self.draw.rng.within(1, 1500) as u32,
        }
    }

    /// Makes a batch fail: by its lists, by an order's kind or offer, or as the orders run.
    fn spoil(&mut self, reads: &mut Vec<u64>, orders: &mut Vec<u64>, now: &Changes) {
        let offers: Vec<u32> = now.keys().copied().collect();
        let offer = self.draw.rng.pick(&offers);
        let known = self.draw.rng.pick(&[2, 3, 16, 27, 31]);
        match self.draw.rng.below(8) {
            0 => *reads = self.draw.broken_list(),
            1 => orders.resize(self.draw.rng.pick(&[ORDERS + 1, LIST_WORDS]), order(0, 1, offer)),
            2 => {
                let kind = self.draw.rng.pick(&[4, 15, 32, 128, 255]);
                self.insert(orders, order(kind, 0, offer));
            }
            3 => {
                let amount = self.draw.rng.within(1, 9) as u32;
                self.insert(orders, order(1, amount, offer));
            }
            4 => {
                let other = self.draw.rng.bits() as u32;
                self.insert(orders, order(known, 1, other));
            }
            5 => orders.extend([order(1, 0, offer), order(known, 1, offer)]),
            6 => orders.extend([order(0, 5, offer), order(3, 6, offer)]),
            _ => {
                orders.clear();
                reads.retain(|&word| word::offer(word) != offer);
                reads.push(word::entry(offer, Some(u32::MAX - 1)));
                reads.sort_by_key(|&word| word::offer(word));
                orders.extend([order(2, 1, offer), order(2, 1, offer)]);
            }
        }
        orders.truncate(LIST_WORDS);
    }

    fn insert(&mut self, orders: &mut Vec<u64>, word: u64) {
        let at = self.draw.rng.within(0, orders.len());
        orders.insert(at, word);
    }
}

/// How often a list is near the most words that the caller may list, beside a hundred others.
fn edges(caller: Caller) -> usize {
    match caller {
        Caller::Desk => 6,
        Caller::Foyer => 80,
    }
}
