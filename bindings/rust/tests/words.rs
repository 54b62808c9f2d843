//! Entry and order words at the corners of their fields and past them, and what is displayed of them and of quotes.

mod common;

use cechnuol::{price_batch, Entry, Order, Quote, Refusal, Since};
use common::Rng;

const OFFERS: [u32; 4] = [0, 1, 5, (1 << 31) - 1];
const PRICES: [u32; 4] = [0, 1, 1200, u32::MAX];
const AMOUNTS: [u32; 4] = [0, 1, 800, (1 << 25) - 1];

#[test]
fn entries_by_hand() {
    assert_eq!(Entry::put(0, 0).word(), 0x8000_0000_0000_0000);
    assert_eq!(Entry::put(5, 1200).word(), 0x8000_0005_0000_04B0);
    assert_eq!(Entry::put(0x7FFF_FFFF, u32::MAX).word(), u64::MAX);
    assert_eq!(Entry::remove(0).word(), 0);
    assert_eq!(Entry::remove(5).word(), 0x0000_0005_0000_0000);
    assert_eq!(Entry::ask(0x7FFF_FFFF).word(), 0x7FFF_FFFF_0000_0000);
}

#[test]
fn entries_at_all_corners() {
    for offer in OFFERS {
        for price in PRICES {
            let entry = Entry::put(offer, price);
            assert_eq!((entry.offer(), entry.price()), (offer, Some(price)));
            assert_eq!(entry.word(), 1 << 63 | u64::from(offer) << 32 | u64::from(price));
            assert_eq!(Entry::put(offer | 1 << 31, price), entry, "the lowest 31 bits of an offer");
        }
        let entry = Entry::remove(offer);
        assert_eq!((entry.offer(), entry.price(), Entry::ask(offer)), (offer, None, entry));
        assert_eq!(Entry::remove(offer | 1 << 31), entry, "no removal becomes a price");
    }
}

#[test]
fn orders_by_hand() {
    assert_eq!(Order::list(5, 1200).word(), 0x0000_0258_0000_0005);
    assert_eq!(Order::withdraw(5).word(), 0x0100_0000_0000_0005);
    assert_eq!(Order::raise(0x7FFF_FFFF, 0x1FF_FFFF).word(), 0x02FF_FFFF_FFFF_FFFF);
    assert_eq!(Order::cut(0, 1).word(), 0x0300_0000_8000_0000);
    assert_eq!(Order::sixteenths(5, 1, 0).word(), 0x1000_0000_0000_0005);
    assert_eq!(Order::sixteenths(5, 16, 0).word(), 0x1F00_0000_0000_0005);
    assert_eq!(Order::NO_ORDER.word(), 0xFF00_0000_0000_0000);
}

/// A kind, and its builder, which takes an offer and an amount.
type Builder = (u8, Box<dyn Fn(u32, u32) -> Order>);

fn builders() -> Vec<Builder> {
    let mut builders: Vec<Builder> =
        vec![(0, Box::new(Order::list)), (2, Box::new(Order::raise)), (3, Box::new(Order::cut))];
    for n in 1..=16u8 {
        builders.push((15 + n, Box::new(move |offer, floor| Order::sixteenths(offer, n.into(), floor))));
    }
    builders
}

#[test]
fn orders_at_all_corners() {
    for (kind, build) in builders() {
        for (offer, amount) in OFFERS.iter().flat_map(|&offer| AMOUNTS.map(|amount| (offer, amount))) {
            let order = build(offer, amount);
            assert_eq!((order.kind(), order.amount(), order.offer()), (kind, amount, offer));
            assert_eq!(Order::new(kind, amount, offer), order);
            for wrong in [1 << 25, 1 << 31, u32::MAX] {
                assert_eq!(build(offer, wrong), Order::NO_ORDER);
            }
            for wrong in [1 << 31, u32::MAX] {
                assert_eq!(build(wrong, amount), Order::NO_ORDER);
            }
        }
    }
    for offer in OFFERS {
        let order = Order::withdraw(offer);
        assert_eq!((order.kind(), order.amount(), order.offer()), (1, 0, offer));
    }
    assert_eq!(Order::withdraw(1 << 31), Order::NO_ORDER);
    for wrong in [0, 17, 241, 256 + 1, u32::MAX] {
        assert_eq!(Order::sixteenths(5, wrong, 0), Order::NO_ORDER);
    }
}

/// Which kinds the library knows.
#[test]
fn kinds() {
    let reads = [Entry::put(5, 100)];
    for kind in 0..=255 {
        let answer = price_batch(&reads, &[Order::new(kind, 0, 5)], &mut [reads[0]]);
        let known = matches!(kind, Order::LIST..=Order::CUT | Order::SIXTEENTH..=31);
        assert_eq!(answer, if known { Ok(1) } else { Err(Refusal::BadOrder) }, "kind {kind}");
    }
}

#[test]
fn what_is_displayed() {
    let entries = [Entry::put(5, 1100), Entry::remove(9), Entry::from_word(9 << 32 | 7)];
    assert_eq!(entries.map(|it| it.to_string()), ["offer 5 price 1100", "offer 9 none", "offer 9 none 7"]);
    assert_eq!(format!("{:?}", entries[0]), "Entry(offer 5 price 1100)");
    let orders = [
        (Order::list(5, 1), "offer 5 list 1"),
        (Order::withdraw(5), "offer 5 withdraw"),
        (Order::new(1, 2, 5), "offer 5 withdraw 2"),
        (Order::raise(5, 3), "offer 5 raise 3"),
        (Order::cut(5, 4), "offer 5 cut 4"),
        (Order::sixteenths(5, 12, 800), "offer 5 sixteenths 12 floor 800"),
        (Order::NO_ORDER, "offer 0 kind 255 amount 0"),
    ];
    for (order, text) in orders {
        assert_eq!((order.to_string(), format!("{order:?}")), (text.into(), format!("Order({text})")));
    }
    let quotes = [
        (Some(1200), Since::State(3), "price 1200, since state 3"),
        (Some(0), Since::Table, "price 0, by the table"),
        (None, Since::State(u32::MAX), "none, since state 4294967295"),
        (None, Since::Table, "none, by the table"),
    ];
    for (price, since, text) in quotes {
        assert_eq!(Quote { price, since }.to_string(), text);
    }
}

/// Two words that differ are displayed differently, so nothing of a word is hidden; slices are words without a copy.
#[test]
fn any_words() {
    let mut rng = Rng(1);
    for _ in 0..10_000 {
        let word = rng.bits() & rng.bits();
        let other = word ^ 1 << rng.below(64);
        assert_ne!(Entry::from_word(word).to_string(), Entry::from_word(other).to_string());
        assert_ne!(Order::from_word(word).to_string(), Order::from_word(other).to_string());
    }
    let words = rng.words(100);
    assert_eq!(Entry::words(Entry::from_words(&words)).as_ptr(), words.as_ptr());
    assert_eq!(Order::words(Order::from_words(&words)), words);
    assert_eq!(Entry::from_words(&words)[99].word(), words[99]);
    assert_eq!(Entry::from_words(&[]), []);
}
