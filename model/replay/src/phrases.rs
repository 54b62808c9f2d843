//! Entry words, orders and how fresh a price is, as people write them.

use ffi::BY_TABLE;
use model::batch::order_offer;
use model::format::Format;
use model::word::{is_entry, kind, offer, price};

/// An entry word: an offer's price, or that it has none.
pub fn entry(word: u64) -> String {
    match kind(word) {
        1 => format!("offer {} price {}", offer(word), price(word)),
        _ if is_entry(word) => format!("offer {} none", offer(word)),
        _ => format!("no entry {word:016X}"),
    }
}

/// A word of an issue's list, which asks for an offer's price.
pub fn question(word: u64) -> String {
    if kind(word) == 0 && is_entry(word) {
        format!("offer {}", offer(word))
    } else {
        entry(word)
    }
}

/// An order word, most significant bit first: kind 8 bits, amount 25 bits, offer 31 bits.
pub fn order(word: u64) -> String {
    let (kind, amount, offer) = (word >> 56, word >> 31 & 0x01FF_FFFF, order_offer(word));
    match (kind, amount) {
        (0, _) => format!("list offer {offer} at {amount}"),
        (1, 0) => format!("withdraw offer {offer}"),
        (2, _) => format!("raise offer {offer} by {amount}"),
        (3, _) => format!("cut offer {offer} by {amount}"),
        (16..=31, 0) => format!("keep {}/16 of offer {offer}", kind - 15),
        (16..=31, _) => format!("keep {}/16 of offer {offer} but at least {amount}", kind - 15),
        _ => format!("no order {word:016X}"),
    }
}

/// How fresh a price is: the state that named its offer last, or that the table answered.
pub fn freshness(since: u64) -> String {
    match since {
        BY_TABLE => "by the table".to_string(),
        state if state < BY_TABLE => format!("since state {state}"),
        number => format!("since no state {number}"),
    }
}

/// Words one after another.
pub fn words(words: &[u64], phrase: fn(u64) -> String) -> String {
    listed(words.iter().map(|&word| phrase(word)), ", ")
}

/// Phrases one after another, or that there are none.
pub fn listed(phrases: impl Iterator<Item = String>, between: &str) -> String {
    let phrases: Vec<String> = phrases.collect();
    if phrases.is_empty() {
        "nothing".to_string()
    } else {
        phrases.join(between)
    }
}

/// An image or a sheet.
pub fn article(format: Format) -> &'static str {
    match format {
        Format::Image => "an image",
        Format::Sheet => "a sheet",
    }
}

/// A file that is loaded as an image, or as a sheet.
pub fn file(format: Format) -> &'static str {
    match format {
        Format::Image => "file",
        Format::Sheet => "sheet file",
    }
}

/// The depth that a store is given, where it is not 0.
pub fn with_depth(depth: u32) -> String {
    match depth {
        0 => String::new(),
        depth => format!(" with depth {depth}"),
    }
}

/// A number of things.
pub fn count(number: u64, thing: &str) -> String {
    format!("{number} {thing}{}", if number == 1 { "" } else { "s" })
}
