//! Orders priced on a read set.

use super::refusal::Refusal;
use super::word::{self, LIST_WORDS, OFFERS};

/// The most orders of a batch.
const ORDERS: usize = 64;

/// An order word, most significant bit first: kind 8 bits, amount 25 bits, offer 31 bits.
#[derive(Clone, Copy)]
struct Order(u64);

impl Order {
    fn kind(self) -> u8 {
        (self.0 >> 56) as u8
    }

    fn amount(self) -> u32 {
        (self.0 >> 31) as u32 & ((1 << 25) - 1)
    }

    fn offer(self) -> u32 {
        self.0 as u32 & (OFFERS - 1)
    }

    /// Whether the kind is known, and a withdrawal's amount is 0.
    fn is_allowed(self) -> bool {
        match self.kind() {
            1 => self.amount() == 0,
            0 | 2 | 3 | 16..=31 => true,
            _ => false,
        }
    }

    /// The word of the order's offer after it, seen the one before it.
    fn run(self, shown: u64) -> Result<u64, Refusal> {
        let (offer, amount) = (self.offer(), self.amount());
        let price = match self.kind() {
            0 => return Ok(word::put(offer, amount)),
            1 => return Ok(word::none(offer)),
            _ if !word::is_put(shown) => return Err(Refusal::NoPrice),
            2 => word::price(shown).checked_add(amount).ok_or(Refusal::PriceRange)?,
            3 => word::price(shown).checked_sub(amount).ok_or(Refusal::PriceRange)?,
            kind => kept(word::price(shown), kind - 15).max(amount),
        };
        Ok(word::put(offer, price))
    }
}

/// So many sixteenths of a price, 1 to 16, to the nearest unit, a half upward.
fn kept(price: u32, sixteenths: u8) -> u32 {
    ((u64::from(price) * u64::from(sixteenths) + 8) >> 4) as u32
}

/// Runs orders in turn on a read set; one word for each offer that they name goes to the start of `out`. Gives their count.
pub fn price_batch(reads: &[u64], orders: &[u64], out: &mut [u64]) -> Result<usize, Refusal> {
    Refusal::BadList.unless(word::is_list(reads) && orders.len() <= ORDERS)?;
    let orders = || orders.iter().map(|&order| Order(order));
    Refusal::BadOrder.unless(orders().all(Order::is_allowed))?;
    let mut places = [0; ORDERS];
    for (place, order) in places.iter_mut().zip(orders()) {
        *place = word::place(reads, order.offer()).ok_or(Refusal::OfferNotRead)?;
    }
    let mut words = [0; LIST_WORDS];
    let words = &mut words[..reads.len()];
    words.copy_from_slice(reads);
    let mut named = [false; LIST_WORDS];
    for (order, place) in orders().zip(places) {
        words[place] = order.run(words[place])?;
        named[place] = true;
    }
    let count = named.iter().filter(|&&named| named).count();
    let out = out.get_mut(..count).ok_or(Refusal::OutputShort)?;
    let changed = words.iter().zip(named).filter(|(_, named)| *named);
    for (to, (&word, _)) in out.iter_mut().zip(changed) {
        *to = word;
    }
    Ok(count)
}
