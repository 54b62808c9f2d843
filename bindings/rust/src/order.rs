//! The order word.

use crate::raw;
use std::fmt;

/// An order of a batch ([`price_batch`](crate::price_batch)).
///
/// It is 64 bits, most significant first: kind of 8 bits, amount of 25 bits, offer of 31 bits. An amount is below 2^25
/// and an offer below 2^31. A builder gives [`Order::NO_ORDER`] for arguments that do not fit, so that a batch with them
/// is refused and never priced at an amount that was cut.
///
/// ```
/// use cechnuol::{price_batch, Entry, Order, Refusal};
///
/// let reads = [Entry::put(5, 1001)];
/// let mut out = [Entry::from_word(0)];
/// // 12 sixteenths of 1001 are 750.75
/// assert_eq!(price_batch(&reads, &[Order::sixteenths(5, 12, 0)], &mut out), Ok(1));
/// assert_eq!(out, [Entry::put(5, 751)]);
/// let too_much = Order::raise(5, 1 << 25);
/// assert_eq!(too_much, Order::NO_ORDER);
/// assert_eq!(price_batch(&reads, &[too_much], &mut out), Err(Refusal::BadOrder));
/// ```
#[derive(Clone, Copy, PartialEq, Eq, Hash)]
#[repr(transparent)]
pub struct Order(u64);

impl Order {
    /// A word of unknown kind: no order. A batch that has it is refused
    /// ([`Refusal::BadOrder`](crate::Refusal::BadOrder)).
    pub const NO_ORDER: Order = Order(0xFF << 56);

    /// The kind that lists an offer at the amount.
    pub const LIST: u8 = 0;
    /// The kind that withdraws an offer; its amount is 0.
    pub const WITHDRAW: u8 = 1;
    /// The kind that raises a price by the amount.
    pub const RAISE: u8 = 2;
    /// The kind that cuts a price by the amount.
    pub const CUT: u8 = 3;
    /// The kind that keeps one sixteenth of a price; those that keep 2 to 16 follow it.
    pub const SIXTEENTH: u8 = 16;

    /// The order that puts an offer at an amount, whatever it had before.
    #[inline]
    pub const fn list(offer: u32, amount: u32) -> Order {
        Order::new(Order::LIST, amount, offer)
    }

    /// The order that removes an offer.
    #[inline]
    pub const fn withdraw(offer: u32) -> Order {
        Order::new(Order::WITHDRAW, 0, offer)
    }

    /// The order that raises an offer's price by an amount.
    #[inline]
    pub const fn raise(offer: u32, amount: u32) -> Order {
        Order::new(Order::RAISE, amount, offer)
    }

    /// The order that cuts an offer's price by an amount.
    #[inline]
    pub const fn cut(offer: u32, amount: u32) -> Order {
        Order::new(Order::CUT, amount, offer)
    }

    /// The order that makes an offer's price so many sixteenths of it, to the nearest unit and a half upward, or the floor
    /// amount if that is more. The sixteenths are 1 to 16.
    #[inline]
    pub const fn sixteenths(offer: u32, sixteenths: u32, floor: u32) -> Order {
        match sixteenths {
            1..=16 => Order::new(Order::SIXTEENTH - 1 + sixteenths as u8, floor, offer),
            _ => Order::NO_ORDER,
        }
    }

    /// The order of these fields, or [`Order::NO_ORDER`] where the amount is 2^25 or more or the offer 2^31 or more. The
    /// fields come as they stand in the word, and as C's `cechnuol_order` takes them: the amount before the offer, where the
    /// builders of each kind take the offer first.
    #[inline]
    pub const fn new(kind: u8, amount: u32, offer: u32) -> Order {
        if amount >= 1 << 25 || offer >= 1 << 31 {
            return Order::NO_ORDER;
        }
        Order((kind as u64) << 56 | (amount as u64) << 31 | offer as u64)
    }

    /// The kind.
    #[inline]
    pub const fn kind(self) -> u8 {
        (self.0 >> 56) as u8
    }

    /// The amount.
    #[inline]
    pub const fn amount(self) -> u32 {
        (self.0 >> 31) as u32 & 0x1FF_FFFF
    }

    /// The offer.
    #[inline]
    pub const fn offer(self) -> u32 {
        self.0 as u32 & 0x7FFF_FFFF
    }

    /// The order of a word.
    #[inline]
    pub const fn from_word(word: u64) -> Order {
        Order(word)
    }

    /// The word.
    #[inline]
    pub const fn word(self) -> u64 {
        self.0
    }

    /// Words as the orders that they are, without a copy.
    #[inline]
    pub fn from_words(words: &[u64]) -> &[Order] {
        raw::values(words)
    }

    /// Orders as their words, without a copy.
    #[inline]
    pub fn words(orders: &[Order]) -> &[u64] {
        raw::words(orders)
    }
}

/// In words: `offer 5 raise 300`, `offer 5 sixteenths 12 floor 800`. A kind that is unknown is shown by its number.
impl fmt::Display for Order {
    fn fmt(&self, f: &mut fmt::Formatter<'_>) -> fmt::Result {
        let amount = self.amount();
        write!(f, "offer {} ", self.offer())?;
        match self.kind() {
            Order::LIST => write!(f, "list {amount}"),
            Order::WITHDRAW if amount == 0 => f.write_str("withdraw"),
            Order::WITHDRAW => write!(f, "withdraw {amount}"),
            Order::RAISE => write!(f, "raise {amount}"),
            Order::CUT => write!(f, "cut {amount}"),
            kind @ 16..=31 => write!(f, "sixteenths {} floor {amount}", kind - 15),
            kind => write!(f, "kind {kind} amount {amount}"),
        }
    }
}

impl fmt::Debug for Order {
    fn fmt(&self, f: &mut fmt::Formatter<'_>) -> fmt::Result {
        write!(f, "Order({self})")
    }
}
