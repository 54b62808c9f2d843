//! Stores prepared to be measured: a map in the table and steps over it, made by calls of the unit.

use crate::baseline::{word, Head};
use cechnuol::raw::DESK;
use cechnuol::{image_bytes_of, sheet_bytes_of, HEAD_WORDS};
use ffi::Lent;
use model::rng::Rng;
use model::sheet;
use std::collections::BTreeSet;

/// The most stores that a scene has, and the most words that they have in all. They differ in their newest steps, so that no
/// predictor of branches learns one by heart.
const VARIANTS: usize = 64;
const WORDS: usize = 1 << 16;

/// The seats of a row.
const SEATS: u32 = 32;

/// The size of a store.
#[derive(Clone, Copy, Debug)]
pub struct Shape {
    /// Words lent.
    pub table: usize,
    pub journal: usize,
    /// Offers in the table, and how they lie in rows.
    pub offers: usize,
    pub seats: Seats,
    /// Steps held, and the words of each.
    pub held: usize,
    pub step: usize,
    /// Offers that a read is of.
    pub read: usize,
}

/// How the offers of a table lie in rows of 32 seats.
#[derive(Clone, Copy, Debug, PartialEq, Eq)]
pub enum Seats {
    /// No two of them are in one row.
    One,
    /// Every row has all its seats, the last those that are left.
    All,
}

/// Stores of a shape, which share a table and, if slot 0 is open, its read set.
pub struct Scene {
    pub shape: Shape,
    pub table: Vec<u64>,
    pub reads: Vec<u64>,
    variants: Vec<Variant>,
    rng: Rng,
}

/// The journal of a store, its head as words and as the baseline has it, and the offers with a price at its tip.
pub struct Variant {
    pub journal: Vec<u64>,
    pub words: [u64; HEAD_WORDS],
    pub head: Head,
    present: Offers,
}

impl Scene {
    /// All steps lie above the checkpoint and no slot is open.
    pub fn new(shape: Shape) -> Scene {
        Scene::draw(shape, false)
    }

    /// Slot 0 is open since the oldest state, and half of the steps have been flushed since.
    pub fn with_early_read(shape: Shape) -> Scene {
        Scene::draw(shape, true)
    }

    fn draw(shape: Shape, early: bool) -> Scene {
        let mut rng = Rng::new((shape.offers * 100 + shape.held) as u64);
        let mut present = Offers::draw(shape.offers, shape.seats, &mut rng);
        let map: Vec<u64> =
            present.rising().into_iter().map(|offer| word::put(offer, price(&mut rng))).collect();
        let mut lent = Lent::of_lengths(shape.table, shape.journal);
        let image = image_of(&map);
        assert_eq!(lent.lend().load(0, &image), 0);
        let mut reads = present.asked(shape.read, &mut rng);
        let mut flushed = 0;
        if early {
            assert_eq!(lent.lend().issue(DESK, 0, &mut reads), 0);
            flushed = shape.held / 2;
            commit_steps(&mut lent, &mut present, shape.step, flushed, &mut rng);
            assert_eq!(lent.lend().flush(flushed as u32), 0);
        }
        let table = lent.table.clone();
        let count = (WORDS / (shape.table + shape.journal)).clamp(1, VARIANTS);
        let variants = (0..count).map(|_| {
            let (mut lent, mut present) = (lent.clone(), present.clone());
            commit_steps(&mut lent, &mut present, shape.step, shape.held - flushed, &mut rng);
            assert_eq!(lent.table, table);
            let head = Head::of_words(&lent.head);
            Variant { journal: lent.journal, words: lent.head, head, present }
        });
        let variants = variants.collect();
        Scene { shape, table, reads, variants, rng }
    }

    /// The store whose turn it is.
    pub fn variant(&self, turn: usize) -> &Variant {
        &self.variants[turn % self.variants.len()]
    }

    /// The list of a held step of the first store.
    pub fn step(&self, step: usize) -> &[u64] {
        let Variant { journal, head, .. } = self.variant(0);
        &journal[head.end_of(step)..head.end_of(step + 1)]
    }

    /// The image of the table.
    pub fn image(&self) -> Vec<u8> {
        image_of(&self.table[..self.shape.offers])
    }

    /// The bytes of the longest image that a state of these stores may have.
    pub fn image_bytes(&self) -> usize {
        image_bytes_of(self.shape.offers + self.shape.held * self.shape.step)
    }

    /// The sheet of the table.
    pub fn sheet(&self) -> Vec<u8> {
        sheet::write(0, &self.table[..self.shape.offers])
    }

    /// As many bytes as the longest sheet that a state of these stores may have, or more.
    pub fn sheet_bytes(&self) -> usize {
        sheet_bytes_of(self.shape.offers + self.shape.held * self.shape.step)
    }

    /// The words lent.
    pub fn words(&self) -> usize {
        self.table.len() + self.variants[0].journal.len()
    }

    /// Lists of a length that the first store's next step may have.
    pub fn lists(&self, words: usize) -> Vec<Vec<u64>> {
        let mut rng = self.rng.clone();
        (0..16).map(|_| self.variants[0].present.clone().step(words, &mut rng)).collect()
    }

    /// Lists of offers to read, half of them in the table if it has so many.
    pub fn asked(&self) -> Vec<Vec<u64>> {
        let mut rng = self.rng.clone();
        let offers = Offers(self.table[..self.shape.offers].iter().map(|&word| word::offer(word)).collect());
        (0..16).map(|_| offers.asked(self.shape.read, &mut rng)).collect()
    }

    /// Offers with a price at the tip of the first store, or without one.
    pub fn sought(&self, present: bool) -> Vec<u32> {
        let mut rng = self.rng.clone();
        let offers = &self.variants[0].present;
        (0..256).map(|_| if present { offers.one(&mut rng) } else { offers.another(&mut rng) }).collect()
    }
}

fn commit_steps(lent: &mut Lent, present: &mut Offers, words: usize, steps: usize, rng: &mut Rng) {
    for _ in 0..steps {
        assert_eq!(lent.lend().commit(&present.step(words, rng)), 0);
    }
}

fn image_of(map: &[u64]) -> Vec<u8> {
    let mut image = vec![0; 4];
    image.extend((map.len() as u16).to_be_bytes());
    image.extend(map.iter().flat_map(|word| word.to_be_bytes()));
    image
}

fn price(rng: &mut Rng) -> u32 {
    rng.within(0, 100_000) as u32
}

/// Offers that have a price, in no order.
#[derive(Clone)]
struct Offers(Vec<u32>);

impl Offers {
    fn draw(count: usize, seats: Seats, rng: &mut Rng) -> Offers {
        let mut rows = BTreeSet::new();
        let mut offers = Vec::new();
        while offers.len() < count {
            let offer = rng.bits() as u32 % word::OFFERS;
            if rows.insert(offer / SEATS) {
                let first = offer / SEATS * SEATS;
                match seats {
                    Seats::One => offers.push(offer),
                    Seats::All => offers.extend((first..first + SEATS).take(count - offers.len())),
                }
            }
        }
        offers.sort_unstable();
        Offers(offers)
    }

    fn rising(&self) -> Vec<u32> {
        let mut offers = self.0.clone();
        offers.sort_unstable();
        offers
    }

    /// One of the offers.
    fn one(&self, rng: &mut Rng) -> u32 {
        rng.pick(&self.0)
    }

    /// An offer that is none of them.
    fn another(&self, rng: &mut Rng) -> u32 {
        loop {
            let offer = rng.bits() as u32 % word::OFFERS;
            if !self.0.contains(&offer) {
                return offer;
            }
        }
    }

    /// A list for a step of so many words, and the offers after it. Of four words two put another price, one removes an offer
    /// and one adds one; where no offer is left to be changed, one is added.
    fn step(&mut self, words: usize, rng: &mut Rng) -> Vec<u64> {
        let mut list = Vec::new();
        let mut added = Vec::new();
        let mut changed = Vec::new();
        for turn in 0..words {
            if turn % 4 == 3 || self.0.is_empty() {
                let offer = self.another(rng);
                added.push(offer);
                list.push(word::put(offer, price(rng)));
                continue;
            }
            let offer = self.0.swap_remove(rng.below(self.0.len()));
            if turn % 4 == 2 {
                list.push(word::none(offer));
            } else {
                changed.push(offer);
                list.push(word::put(offer, price(rng)));
            }
        }
        self.0.append(&mut added);
        self.0.append(&mut changed);
        list.sort_by_key(|&word| word::offer(word));
        list.dedup_by_key(|word| word::offer(*word));
        list
    }

    /// A list that reads so many offers, half of them with a price if there are so many.
    fn asked(&self, words: usize, rng: &mut Rng) -> Vec<u64> {
        let mut offers = BTreeSet::new();
        while offers.len() < self.0.len().min(words.div_ceil(2)) {
            offers.insert(self.one(rng));
        }
        while offers.len() < words {
            offers.insert(self.another(rng));
        }
        offers.into_iter().map(word::none).collect()
    }
}
