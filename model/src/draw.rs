//! Drawing arguments: offers, prices, lists, states, depths, slots and callers, with their ends drawn often.

use crate::caller::{Caller, FOYER_WORDS};
use crate::changes::{Changes, Map};
use crate::head::{Head, MOST_DEPTH, SLOTS};
use crate::rng::Rng;
use crate::store::Store;
use crate::word;
use std::collections::BTreeSet;

/// A random source and the offers that are drawn most often.
#[derive(Clone, Debug)]
pub struct Draw {
    pub rng: Rng,
    pool: Vec<u32>,
}

impl Draw {
    /// A source of a seed, with a pool of offers.
    pub fn new(seed: u64) -> Draw {
        let mut draw = Draw { rng: Rng::new(seed), pool: Vec::new() };
        draw.new_pool();
        draw
    }

    /// Draws a new pool: few offers, so that steps meet, or enough for lists of 64 and more.
    pub fn new_pool(&mut self) {
        let size = match self.rng.weighted(&[5, 3, 2]) {
            0 => self.rng.within(1, 6),
            1 => self.rng.within(7, 20),
            _ => self.rng.within(66, 120),
        };
        // Mostly offers close together; at times each in another row.
        let rise = self.rng.pick(&[1, 1, 1, 31, 32]);
        let mut pool: Vec<u32> = (0..size).map(|_| (rise * self.rng.below(3 * size)) as u32).collect();
        if self.rng.percent(50) {
            pool.push(word::OFFERS - 1);
        }
        pool.sort_unstable();
        pool.dedup();
        self.pool = pool;
    }

    /// A price, its ends often.
    pub fn price(&mut self) -> u32 {
        match self.rng.below(6) {
            0 => 0,
            1 => u32::MAX,
            2 => self.rng.bits() as u32,
            _ => self.rng.within(1, 3000) as u32,
        }
    }

    /// A price or none.
    pub fn maybe_price(&mut self) -> Option<u32> {
        self.rng.percent(70).then(|| self.price())
    }

    /// An offer, nearly always of the pool.
    pub fn offer(&mut self) -> u32 {
        if self.rng.percent(90) {
            self.rng.pick(&self.pool.clone())
        } else {
            self.rng.bits() as u32 % word::OFFERS
        }
    }

    /// An offer to look up: often one that a word of table or journal has.
    pub fn offer_in(&mut self, store: &Store) -> u32 {
        let words = match self.rng.weighted(&[1, 2, 2]) {
            0 => &store.table,
            1 => &store.journal,
            _ => return self.offer(),
        };
        let used: Vec<u64> = words.iter().copied().filter(|&word| word != 0).collect();
        if used.is_empty() {
            return self.offer();
        }
        word::offer(self.rng.pick(&used))
    }

    /// Up to so many different offers of the pool, rising.
    pub fn offers(&mut self, count: usize) -> Vec<u32> {
        let mut left = self.pool.clone();
        while left.len() > count {
            let out = self.rng.below(left.len());
            left.remove(out);
        }
        left
    }

    /// A length of a list: mostly short, at times as long as the pool and the rules allow.
    fn list_length(&mut self) -> usize {
        match self.rng.weighted(&[15, 35, 35, 15]) {
            0 => 0,
            1 => 1,
            2 => self.rng.within(2, 5),
            _ => word::LIST_WORDS,
        }
    }

    /// A list of changes that keeps its rules.
    pub fn changes(&mut self) -> Vec<u64> {
        let length = self.list_length();
        self.offers(length).into_iter().map(|offer| word::entry(offer, self.maybe_price())).collect()
    }

    /// A list of changes of which many words say what a map has already: they name their offers and leave it as it is.
    pub fn repeats(&mut self, map: &Map) -> Vec<u64> {
        let mut list = self.changes();
        for word in list.iter_mut().filter(|_| self.rng.percent(70)) {
            *word = word::entry(word::offer(*word), map.get(&word::offer(*word)).copied());
        }
        list
    }

    /// A list of changes of at most one word.
    pub fn short_changes(&mut self) -> Vec<u64> {
        let length = self.rng.below(2);
        self.offers(length).into_iter().map(|offer| word::entry(offer, self.maybe_price())).collect()
    }

    /// A list of kind 0 words.
    pub fn questions(&mut self) -> Vec<u64> {
        let length = self.list_length();
        self.offers(length).into_iter().map(|offer| word::entry(offer, None)).collect()
    }

    /// So many different offers, rising: of the pool, and others where it has too few.
    fn exactly(&mut self, count: usize) -> BTreeSet<u32> {
        let mut offers: BTreeSet<u32> = self.offers(count).into_iter().collect();
        while offers.len() < count {
            offers.insert(self.rng.below(4 * count) as u32);
        }
        offers
    }

    /// A length near the most words that a caller may list.
    fn edge(&mut self) -> usize {
        let most = self.rng.pick(&[FOYER_WORDS, FOYER_WORDS, word::LIST_WORDS]);
        self.rng.within(most - 1, most + 1)
    }

    /// A list of kind 0 words of such a length, at times with one that breaks its rules or is of kind 1.
    pub fn edge_questions(&mut self) -> Vec<u64> {
        let length = self.edge();
        let list = self.exactly(length).into_iter().map(|offer| word::entry(offer, None)).collect();
        self.perhaps_spoilt(list)
    }

    /// A list of such a length, at times with a word that breaks its rules.
    pub fn edge_changes(&mut self) -> Vec<u64> {
        let length = self.edge();
        let offers = self.exactly(length);
        let list = offers.into_iter().map(|offer| word::entry(offer, self.maybe_price())).collect();
        self.perhaps_spoilt(list)
    }

    /// Words, one of which, often the last, may get another kind or price.
    fn perhaps_spoilt(&mut self, mut words: Vec<u64>) -> Vec<u64> {
        if self.rng.percent(20) {
            let last = words.len() - 1;
            let at = self.rng.below(words.len());
            words[self.rng.pick(&[at, last])] ^= self.rng.pick(&[1, 1 << 63]);
        }
        words
    }

    /// The words of a map with at most so many offers.
    pub fn map(&mut self, most: usize) -> Vec<u64> {
        let count = self.rng.within(0, most.min(self.pool.len()));
        self.offers(count).into_iter().map(|offer| word::entry(offer, Some(self.price()))).collect()
    }

    /// A list that breaks the rules of lists.
    pub fn broken_list(&mut self) -> Vec<u64> {
        let offer = self.offer();
        let after = (offer + 1) % word::OFFERS;
        match self.rng.below(5) {
            0 => (0..65).map(|offer| word::entry(offer, None)).collect(),
            1 => vec![word::entry(offer, None), word::entry(offer, None)],
            2 => vec![word::entry(after.max(offer), None), word::entry(after.min(offer), None)],
            3 => vec![word::entry(offer, None) | 1 << self.rng.below(32)],
            _ => (0..self.rng.within(66, 80)).map(|_| self.rng.bits()).collect(),
        }
    }

    /// A state number for a load: small, anywhere, or so high that commits reach the last.
    pub fn number(&mut self) -> u32 {
        match self.rng.weighted(&[3, 3, 2, 3]) {
            0 => 0,
            1 => self.rng.within(1, 100) as u32,
            2 => self.rng.bits() as u32,
            _ => u32::MAX - self.rng.below(70) as u32,
        }
    }

    /// A state, mostly one that a head keeps, from its checkpoint to its tip; at times one just outside.
    pub fn state(&mut self, head: &Head) -> u32 {
        let Head { oldest, checkpoint, tip, .. } = *head;
        if self.rng.percent(80) && checkpoint <= tip {
            let kept = (tip - checkpoint).min(200) as usize;
            return checkpoint + self.rng.within(0, kept) as u32;
        }
        let anything = self.rng.bits() as u32;
        let below = checkpoint.saturating_sub(1);
        let above = tip.saturating_add(1);
        self.rng.pick(&[below, below, oldest, above, above, checkpoint, tip, 0, u32::MAX, anything])
    }

    /// A depth to clear or load with: mostly small, so that flushes are barred and let through; its most and those beside it; at
    /// times one that no store may have.
    pub fn depth(&mut self) -> u32 {
        match self.rng.weighted(&[40, 40, 6, 6, 8]) {
            0 => 0,
            1 => self.rng.within(1, 5) as u32,
            2 => self.rng.within(6, 61) as u32,
            3 => self.rng.pick(&[MOST_DEPTH - 1, MOST_DEPTH]),
            _ => {
                let anything = (self.rng.bits() as u32).max(MOST_DEPTH + 1);
                self.rng.pick(&[MOST_DEPTH + 1, MOST_DEPTH + 1, u32::MAX, u32::MAX, anything])
            }
        }
    }

    /// A depth that a store may have.
    pub fn allowed_depth(&mut self) -> u32 {
        self.depth().min(MOST_DEPTH)
    }

    /// A state to flush to: often the highest that the depth lets through, or one beside it.
    pub fn state_to_flush(&mut self, head: &Head) -> u32 {
        let highest = i64::from(head.tip) - i64::from(head.depth);
        let near = highest + self.rng.pick(&[-1, 0, 0, 1, 1]);
        match u32::try_from(near) {
            Ok(near) if self.rng.percent(40) => near,
            _ => self.state(head),
        }
    }

    /// A slot, mostly one that is open or closed as wanted, and who calls for it.
    pub fn slot(&mut self, held: &[bool; SLOTS], open: bool) -> (Caller, u64) {
        let fitting: Vec<u64> = (0..SLOTS as u64).filter(|&slot| held[slot as usize] == open).collect();
        let slot = match self.rng.weighted(&[16, 3, 1]) {
            0 if !fitting.is_empty() => self.rng.pick(&fitting),
            2 => self.rng.pick(&[8, 9, 255, 1 << 32, u64::MAX]),
            _ => self.rng.below(SLOTS) as u64,
        };
        (self.caller_for(slot), slot)
    }

    /// Who calls for a slot: mostly the one whose it is.
    fn caller_for(&mut self, slot: u64) -> Caller {
        let callers = [Caller::Desk, Caller::Foyer];
        let whose = callers.into_iter().find(|caller| caller.slots().contains(&(slot as usize)));
        match whose {
            Some(whose) if self.rng.percent(90) => whose,
            Some(whose) => whose.other(),
            None => self.caller(),
        }
    }

    /// Who calls, either as often.
    pub fn caller(&mut self) -> Caller {
        self.rng.pick(&[Caller::Desk, Caller::Foyer])
    }

    /// A read set for a batch: offers with their prices or none.
    pub fn read_set(&mut self) -> Changes {
        let length = self.list_length().max(1);
        self.offers(length).into_iter().map(|offer| (offer, self.maybe_price())).collect()
    }
}
