//! Maps from offers to prices, and changes of them (document 000, section 6).

use crate::word;
use std::collections::BTreeMap;

/// A state: a map from offers to prices.
pub type Map = BTreeMap<u32, u32>;

/// What becomes of some offers: a price put, or the price removed. A read set has the same form.
pub type Changes = BTreeMap<u32, Option<u32>>;

/// The changes that a list's words say.
pub fn changes_of(words: &[u64]) -> Changes {
    words.iter().map(|&word| (word::offer(word), word::shown(word))).collect()
}

/// The words of changes, offers rising.
pub fn words_of(changes: &Changes) -> Vec<u64> {
    changes.iter().map(|(&offer, &price)| word::entry(offer, price)).collect()
}

/// The map that words of kind 1 show.
pub fn map_of(words: &[u64]) -> Map {
    words.iter().map(|&word| (word::offer(word), word::price(word))).collect()
}

/// The words of a map, offers rising.
pub fn map_words(map: &Map) -> Vec<u64> {
    map.iter().map(|(&offer, &price)| word::entry(offer, Some(price))).collect()
}

/// Puts or removes the offers of the changes and touches no other.
pub fn apply(map: &Map, changes: &Changes) -> Map {
    let mut after = map.clone();
    for (&offer, &price) in changes {
        match price {
            Some(price) => after.insert(offer, price),
            None => after.remove(&offer),
        };
    }
    after
}

/// The composition of two changes: for each offer the later word wins.
pub fn compose(first: &Changes, then: &Changes) -> Changes {
    let mut both = first.clone();
    both.extend(then);
    both
}

/// The words that show a map at some offers.
pub fn read(map: &Map, offers: &[u32]) -> Vec<u64> {
    offers.iter().map(|&offer| word::entry(offer, map.get(&offer).copied())).collect()
}
