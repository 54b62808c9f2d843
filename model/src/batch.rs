//! Pricing a batch of orders on a read set. There is no store.

use crate::changes::{changes_of, words_of, Changes};
use crate::ground::{unless, Ground};
use crate::word;

/// The most orders of a batch.
pub const ORDERS: usize = 64;

/// What an order does to a price.
#[derive(Clone, Copy, Debug, PartialEq, Eq)]
enum Deed {
    List,
    Withdraw,
    Raise,
    Cut,
    /// Keeps so many sixteenths, 1 to 16.
    Keep(u64),
}

/// An order, most significant bit first: kind 8 bits, amount 25 bits, offer 31 bits.
#[derive(Clone, Copy, Debug, PartialEq, Eq)]
struct Order {
    deed: Deed,
    amount: u32,
    offer: u32,
}

/// The order word of a kind, an amount and an offer.
pub fn order(kind: u8, amount: u32, offer: u32) -> u64 {
    u64::from(kind) << 56 | u64::from(amount % (1 << 25)) << 31 | u64::from(offer % word::OFFERS)
}

/// The offer of an order word.
pub fn order_offer(order: u64) -> u32 {
    order as u32 % word::OFFERS
}

impl Order {
    /// The order that a word says, or ground 7.
    fn of(word: u64) -> Result<Order, Ground> {
        let amount = (word >> 31) as u32 % (1 << 25);
        let deed = match word >> 56 {
            0 => Deed::List,
            1 => Deed::Withdraw,
            2 => Deed::Raise,
            3 => Deed::Cut,
            kind @ 16..=31 => Deed::Keep(kind - 15),
            _ => return Err(Ground::Order),
        };
        unless(deed != Deed::Withdraw || amount == 0, Ground::Order)?;
        Ok(Order { deed, amount, offer: order_offer(word) })
    }

    /// What becomes of a price, or ground 9 or 10.
    fn run(&self, price: Option<u32>) -> Result<Option<u32>, Ground> {
        match self.deed {
            Deed::List => Ok(Some(self.amount)),
            Deed::Withdraw => Ok(None),
            Deed::Raise | Deed::Cut | Deed::Keep(_) => {
                let price = price.ok_or(Ground::NoPrice)?;
                self.reprice(price).ok_or(Ground::PriceRange).map(Some)
            }
        }
    }

    /// The price after a raise, a cut or sixteenths, if it is within its range.
    fn reprice(&self, price: u32) -> Option<u32> {
        match self.deed {
            Deed::Raise => price.checked_add(self.amount),
            Deed::Cut => price.checked_sub(self.amount),
            // "then the amount if that is more": it is held against the rounded price.
            Deed::Keep(sixteenths) => Some(sixteenths_of(price, sixteenths).max(self.amount)),
            Deed::List | Deed::Withdraw => Some(price),
        }
    }
}

/// So many sixteenths of a price "to the nearest unit, a half upward: (price × (kind − 15) + 8) / 16, rounded down". Of 16
/// sixteenths or fewer that is never more than the price.
fn sixteenths_of(price: u32, sixteenths: u64) -> u32 {
    ((u64::from(price) * sixteenths + 8) / 16) as u32
}

/// Runs orders in turn on prices, each seeing the earlier ones; gives the last price of each offer named.
fn run_all(orders: &[Order], prices: &Changes) -> Result<Changes, Ground> {
    let mut now = prices.clone();
    let mut named = Changes::new();
    for order in orders {
        let price = order.run(now.get(&order.offer).copied().flatten())?;
        now.insert(order.offer, price);
        named.insert(order.offer, price);
    }
    Ok(named)
}

/// Runs orders on a read set and gives one word per offer named, or grounds 6 to 10.
pub fn priced(reads: &[u64], orders: &[u64]) -> Result<Vec<u64>, Ground> {
    unless(word::is_list(reads) && orders.len() <= ORDERS, Ground::List)?;
    let orders = orders.iter().map(|&word| Order::of(word)).collect::<Result<Vec<_>, _>>()?;
    let reads = changes_of(reads);
    unless(orders.iter().all(|order| reads.contains_key(&order.offer)), Ground::NotRead)?;
    Ok(words_of(&run_all(&orders, &reads)?))
}

/// Prices a batch into output memory and gives the count; later output words keep their values.
pub fn price_batch(reads: &[u64], orders: &[u64], output: &mut [u64]) -> Result<usize, Ground> {
    let words = priced(reads, orders)?;
    unless(words.len() <= output.len(), Ground::Output)?;
    output[..words.len()].copy_from_slice(&words);
    Ok(words.len())
}

/// Runs order words on a whole map, as a check of batches: nothing is read in advance.
pub fn run_on_map(orders: &[u64], map: &crate::changes::Map) -> Result<crate::changes::Map, Ground> {
    let mut map = map.clone();
    for &word in orders {
        let order = Order::of(word)?;
        match order.run(map.get(&order.offer).copied())? {
            Some(price) => map.insert(order.offer, price),
            None => map.remove(&order.offer),
        };
    }
    Ok(map)
}
