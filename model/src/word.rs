//! The entry word, most significant bit first: kind 1 bit, offer 31 bits, price 32 bits.

/// Offers are numbers below this.
pub const OFFERS: u32 = 1 << 31;

/// The most words of a list.
pub const LIST_WORDS: usize = 64;

/// The kind of a word: 1 puts or shows a price, 0 removes it or shows none.
pub fn kind(word: u64) -> u64 {
    word >> 63
}

/// The offer of a word.
pub fn offer(word: u64) -> u32 {
    (word >> 32) as u32 % OFFERS
}

/// The price field of a word.
pub fn price(word: u64) -> u32 {
    word as u32
}

/// The word that puts or shows a price, or removes it or shows none.
pub fn entry(offer: u32, price: Option<u32>) -> u64 {
    let field = u64::from(offer % OFFERS) << 32;
    match price {
        Some(price) => 1 << 63 | field | u64::from(price),
        None => field,
    }
}

/// What a word puts or shows.
pub fn shown(word: u64) -> Option<u32> {
    (kind(word) == 1).then_some(price(word))
}

/// Whether a word keeps the rule of its price field: kind 0 has price 0.
pub fn is_entry(word: u64) -> bool {
    kind(word) == 1 || price(word) == 0
}

/// Whether the offers of the words rise strictly.
pub fn rises(words: &[u64]) -> bool {
    words.windows(2).all(|pair| offer(pair[0]) < offer(pair[1]))
}

/// Whether words are a list: 0 to 64 entry words with strictly rising offers.
pub fn is_list(words: &[u64]) -> bool {
    words.len() <= LIST_WORDS && words.iter().all(|&word| is_entry(word)) && rises(words)
}

/// Whether words are the words of a map: all of kind 1, with strictly rising offers.
pub fn is_map(words: &[u64]) -> bool {
    words.iter().all(|&word| kind(word) == 1) && rises(words)
}
