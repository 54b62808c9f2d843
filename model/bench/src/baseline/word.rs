//! The entry word, most significant bit first: kind 1 bit, offer 31 bits, price 32 bits; and lists of such words.

/// Offers are numbers below this.
pub const OFFERS: u32 = 1 << 31;

/// The most words of a list.
pub const LIST_WORDS: usize = 64;

/// Whether a word puts or shows a price.
pub fn is_put(word: u64) -> bool {
    word >> 63 == 1
}

/// The offer of a word.
pub fn offer(word: u64) -> u32 {
    (word >> 32) as u32 & (OFFERS - 1)
}

/// The price field of a word.
pub fn price(word: u64) -> u32 {
    word as u32
}

/// The word that puts a price on an offer.
pub fn put(offer: u32, price: u32) -> u64 {
    1 << 63 | none(offer) | u64::from(price)
}

/// The word that removes an offer.
pub fn none(offer: u32) -> u64 {
    u64::from(offer) << 32
}

/// Where an offer stands in words whose offers rise.
pub fn place(words: &[u64], offer: u32) -> Option<usize> {
    words.binary_search_by_key(&offer, |&word| self::offer(word)).ok()
}

/// The word at an offer, of words whose offers rise.
pub fn find(words: &[u64], offer: u32) -> Option<u64> {
    place(words, offer).map(|place| words[place])
}

/// Whether all words are zero.
pub fn are_zero(words: &[u64]) -> bool {
    words.iter().all(|&word| word == 0)
}

/// Whether words are a map: of kind 1, with strictly rising offers. Kind and offer together rise strictly from a first word of
/// kind 1 on.
pub fn is_map(words: &[u64]) -> bool {
    words.first().is_none_or(|&word| is_put(word))
        && words.windows(2).all(|pair| pair[0] >> 32 < pair[1] >> 32)
}

/// Whether a word is of kind 1, or of kind 0 with price 0.
fn is_entry(word: u64) -> bool {
    is_put(word) || price(word) == 0
}

/// Whether words are a list: at most 64, each an entry, with strictly rising offers.
pub fn is_list(words: &[u64]) -> bool {
    words.len() <= LIST_WORDS
        && words.first().is_none_or(|&word| is_entry(word))
        && words.windows(2).all(|pair| is_entry(pair[1]) && offer(pair[0]) < offer(pair[1]))
}
