//! Random bytes as images and sheets, random words as lists, orders, heads and stores: no call panics, and a refused one leaves everything
//! that it was lent as it came.

mod common;

use cechnuol::Caller::{Desk, Foyer};
use cechnuol::{price_batch, Entry, Head, Order, Refusal, Since, Store, Tally};
use cechnuol::{HEAD_WORDS, IMAGE_BYTES, MOST_DEPTH, TALLY_WORDS};
use common::{by_table, of_lengths, since, store, Rng, CALLS};

/// A depth that may be too deep.
fn any_depth(rng: &mut Rng) -> u32 {
    match rng.below(8) {
        0 => rng.bits() as u32,
        _ => rng.below(66) as u32,
    }
}

fn entries(rng: &mut Rng) -> Vec<Entry> {
    let count = rng.below(70);
    Entry::from_words(&rng.words(count)).to_vec()
}

#[test]
fn random_bytes_as_images() {
    let (mut rng, mut accepted) = (Rng(1), 0);
    for _ in 0..20_000 {
        let mut store = store();
        let count = rng.below(5);
        let length = if rng.below(2) == 0 { 6 + 8 * count } else { rng.below(100) };
        let mut image = rng.bytes(length);
        if length >= 6 && rng.below(4) != 0 {
            image[4..6].copy_from_slice(&(count as u16).to_be_bytes());
        }
        image.iter_mut().skip(6).step_by(8).for_each(|byte| *byte |= 0x80);
        let before = (store.clone(), image.clone());
        let depth = any_depth(&mut rng);
        match store.load(depth, &image) {
            Ok(()) => {
                accepted += 1;
                let mut bytes = vec![0; length];
                assert_eq!((store.write_image(&mut bytes), &bytes), (Ok(length), &image));
                assert_eq!((store.head().depth(), depth <= MOST_DEPTH), (depth, true));
            }
            Err(refusal) => {
                assert!(
                    matches!(refusal, Refusal::TooDeep | Refusal::BadImage | Refusal::TableFull),
                    "{refusal}"
                );
                assert_eq!(refusal == Refusal::TooDeep, depth > MOST_DEPTH);
                assert!((store, image) == before);
            }
        }
    }
    assert!((1000..19_000).contains(&accepted), "{accepted}");
}

/// Bytes of which every number is likely in a sheet: what loads is written the same.
#[test]
fn random_bytes_as_sheets() {
    let (mut rng, mut accepted) = (Rng(8), 0);
    for _ in 0..20_000 {
        let mut store = store();
        let numbers = [0, 1, 1, 2, 64, 1 << 31, 0xFFFF_FFC0, rng.bits() as u32];
        let count = 2 + rng.below(7);
        let mut sheet: Vec<u8> = (0..count).flat_map(|_| numbers[rng.below(8)].to_be_bytes()).collect();
        if rng.below(8) == 0 {
            sheet.truncate(rng.below(sheet.len()));
        }
        let before = (store.clone(), sheet.clone());
        match store.load_sheet(0, &sheet) {
            Ok(()) => {
                accepted += 1;
                let mut bytes = vec![0; sheet.len()];
                assert_eq!((store.write_sheet(&mut bytes), &bytes), (Ok(sheet.len()), &sheet));
            }
            Err(refusal) => {
                assert!(matches!(refusal, Refusal::BadImage | Refusal::TableFull), "{refusal}");
                assert!((store, sheet) == before);
            }
        }
    }
    assert!((200..19_000).contains(&accepted), "{accepted}");
}

/// A commit takes a list by the rules of a list, and its entries are then those that are looked up, since the state that it makes.
#[test]
fn random_words_as_lists() {
    let (mut rng, mut accepted) = (Rng(2), 0);
    for _ in 0..5000 {
        let (mut store, list) = (of_lengths(8, 4096), entries(&mut rng));
        let rises = list.windows(2).all(|pair| pair[0].offer() < pair[1].offer());
        let valid = list.iter().all(|entry| entry.price().is_some() || entry.word() as u32 == 0);
        if list.len() > 64 || !rises || !valid {
            common::refused(&store, Refusal::BadList, |store| store.commit(&list));
            continue;
        }
        accepted += 1;
        assert_eq!(store.commit(&list), Ok(()));
        let quotes =
            list.iter().map(|entry| (store.look_up(Desk, entry.offer(), 1), since(1, entry.price())));
        quotes.for_each(|(quote, wanted)| assert_eq!(quote, wanted));
    }
    assert!((100..4900).contains(&accepted), "{accepted}");
}

#[test]
fn random_words_as_read_sets() {
    let mut rng = Rng(3);
    for turn in 0..5000 {
        let (mut store, mut reads) = (store(), entries(&mut rng));
        let before = (store.clone(), reads.clone());
        let caller = [Desk, Foyer][rng.below(2)];
        let answer = match turn % 2 {
            0 => store.issue(caller, rng.below(10), &mut reads),
            _ => store.forward(caller, rng.below(10), rng.below(4) as u32, &mut reads),
        };
        assert!(answer.is_ok() || (store, reads) == before, "{answer:?}");
    }
}

#[test]
fn random_words_as_batches() {
    let (mut rng, mut answers) = (Rng(4), std::collections::BTreeMap::new());
    for _ in 0..50_000 {
        let reads = entries(&mut rng);
        let count = rng.below(67);
        let mut orders: Vec<Order> = rng.words(count).into_iter().map(Order::from_word).collect();
        if let Some(entry) = reads.first().filter(|_| rng.below(4) != 0) {
            let kind = [0, 2, 3, 20][rng.below(4)];
            orders.fill_with(|| Order::new(kind, rng.bits() as u32 >> 7, entry.offer()));
        }
        let mut out = entries(&mut rng);
        let before = (reads.clone(), orders.clone(), out.clone());
        let answer = price_batch(&reads, &orders, &mut out);
        let written = answer.unwrap_or(0);
        assert_eq!(out[written..], before.2[written..], "entries past the changes stay");
        assert_eq!((&reads, &orders), (&before.0, &before.1));
        *answers.entry(answer.map_or_else(Refusal::number, |_| 0)).or_insert(0) += 1;
    }
    let met: Vec<u64> = answers.keys().copied().collect();
    assert_eq!(met, [0, 6, 7, 8, 9, 10, 17], "{answers:?}");
}

/// A store of random lengths whose words are random, or of which some words are.
fn random_store(rng: &mut Rng) -> Store {
    if rng.below(2) == 0 {
        let (table, journal) = (rng.below(10), rng.below(100));
        let [head, tally] = [HEAD_WORDS, TALLY_WORDS].map(|count| rng.words(count));
        let head = Head::from_words(head.try_into().expect("as many words"));
        let tally = Tally::from_words(tally.try_into().expect("as many words"));
        return Store::from_parts(rng.words(table), rng.words(journal), head, tally);
    }
    let small = [0, 1, 2, 3, 7, u64::MAX][rng.below(6)];
    let (mut table, mut journal, head, tally) =
        common::with_head(&store(), &[(rng.below(HEAD_WORDS), small)]).into_parts();
    let (at, step) = (rng.below(8), rng.below(16));
    table[at] ^= (rng.bits() & rng.bits()) * rng.below(2) as u64;
    journal[step] ^= (1 << rng.below(64)) * rng.below(2) as u64;
    Store::from_parts(table, journal, head, tally)
}

#[test]
fn random_stores() {
    let mut rng = Rng(5);
    let (mut accepted, mut refused) = (0, 0);
    for turn in 0..20_000 {
        let before = random_store(&mut rng);
        let (name, call) = CALLS[turn % CALLS.len()];
        let mut store = before.clone();
        match call(&mut store) {
            Ok(()) => accepted += 1,
            Err(refusal) => {
                refused += 1;
                assert!(Refusal::ALL.contains(&refusal), "{name}: {refusal}");
                assert!(store == before, "{name}: {refusal} leaves the store as it came");
            }
        }
    }
    assert!(accepted > 2000 && refused > 2000, "{accepted} accepted, {refused} refused");
}

/// Which step above the checkpoint and up to a state is the last in the journal that has the offer.
fn last_named(store: &Store, offer: u32, state: u32) -> Since {
    let (head, mut start, mut since) = (store.head(), 0, Since::Table);
    for (number, &end) in (head.oldest() + 1..=state).zip(head.ends()) {
        let list = Entry::from_words(&store.journal()[start..end as usize]);
        if number > head.checkpoint() && list.iter().any(|entry| entry.offer() == offer) {
            since = Since::State(number);
        }
        start = end as usize;
    }
    since
}

/// Random commits, rollbacks, flushes and reads: the image of every state from the checkpoint to the tip fits into
/// [`Store::image_bytes`], and loaded elsewhere it quotes the prices that the store quotes, all by the table. In the store they
/// are since the last step that names the offer. The sheet of the state fits into [`Store::sheet_bytes`] and loads alike.
#[test]
fn images_of_random_stores() {
    let mut rng = Rng(7);
    let (mut images, mut large, mut changed) = (0, 0, 0);
    for _ in 0..300 {
        let mut store = of_lengths(1 + rng.below(12), 200);
        let depth = rng.below(6) as u32;
        assert_eq!(store.clear(depth), Ok(()));
        for _ in 0..rng.below(40) {
            let head = store.head();
            let state = head.checkpoint() + rng.below((head.tip() - head.checkpoint()) as usize + 1) as u32;
            // refused where there is no room, or so many steps back must stay, which does no harm here
            let _ = match rng.below(8) {
                0 => store.flush(state),
                1 => store.roll_back(state),
                2 => store.issue(Desk, rng.below(6), &mut [Entry::ask(5)]),
                3 => store.release(Desk, rng.below(6)),
                _ => {
                    let mut offers: Vec<u32> = (0..rng.below(6)).map(|_| rng.below(20) as u32).collect();
                    offers.sort_unstable();
                    offers.dedup();
                    let price = rng.below(3) as u32;
                    let entry = |&offer: &u32| match (offer + price) % 3 {
                        0 => Entry::remove(offer),
                        _ => Entry::put(offer, price),
                    };
                    store.commit(&offers.iter().map(entry).collect::<Vec<Entry>>())
                }
            };
        }
        let (mut bytes, mut sheet) = (vec![0; store.image_bytes()], vec![0; store.sheet_bytes()]);
        for state in store.head().checkpoint()..=store.head().tip() {
            let length = store.write_state_image(state, &mut bytes).expect("bytes enough for each state");
            let mut elsewhere = of_lengths(20, 1);
            assert_eq!(elsewhere.load(0, &bytes[..length]), Ok(()));
            for offer in 0..20 {
                let quote = store.look_up(Desk, offer, state).expect("a state that is kept");
                assert_eq!(quote.since, last_named(&store, offer, state), "offer {offer} at state {state}");
                assert_eq!(elsewhere.look_up(Desk, offer, state), by_table(quote.price), "offer {offer}");
                changed += usize::from(quote.since != Since::Table);
            }
            assert_eq!(length, 6 + 8 * elsewhere.entries().len());
            let length = store.write_state_sheet(state, &mut sheet).expect("bytes enough for each state");
            let mut by_sheet = of_lengths(20, 1);
            assert_eq!((by_sheet.load_sheet(0, &sheet[..length]), &by_sheet), (Ok(()), &elsewhere));
            assert_eq!(store.head().depth(), depth);
            images += 1;
            large += usize::from(elsewhere.entries().len() > store.table().len());
        }
    }
    assert!(
        images > 1000 && large > 100 && changed > 1000,
        "{images} images, {large} with more offers than the table has words, {changed} quotes since a state"
    );
}

/// Random commits, rollbacks, flushes and restarts with a depth: a flush is refused so exactly where the state is not the
/// checkpoint and fewer steps than the depth are above it, and [`Head::highest_flush`] is the highest that is not.
#[test]
fn flushes_of_random_depths() {
    let mut rng = Rng(9);
    let (mut flushed, mut barred) = (0, 0);
    for _ in 0..500 {
        let mut store = of_lengths(4, 1);
        let depth = if rng.below(2) == 0 { rng.below(64) } else { rng.below(8) } as u32;
        let first = if rng.below(2) == 0 { 0 } else { u32::MAX - rng.below(80) as u32 };
        assert_eq!(store.load(depth, &[&first.to_be_bytes()[..], &[0; 2]].concat()), Ok(()));
        for _ in 0..rng.below(120) {
            let (checkpoint, tip) = (store.head().checkpoint(), store.head().tip());
            let state = checkpoint + rng.below((tip - checkpoint) as usize + 1) as u32;
            match rng.below(12) {
                0 => assert_eq!(store.roll_back(state), Ok(())),
                1 => {
                    let is_barred = state != checkpoint && tip - state < depth;
                    assert_eq!(store.head().highest_flush() < state, is_barred);
                    let answer = if is_barred { Err(Refusal::TooDeep) } else { Ok(()) };
                    assert_eq!(store.flush(state), answer, "state {state} of {:?}", store.head());
                    flushed += usize::from(state != checkpoint && !is_barred);
                    barred += usize::from(is_barred);
                }
                2 => assert_eq!(store.flush(store.head().highest_flush()), Ok(())),
                3 if rng.below(20) == 0 => assert_eq!(store.restart(&mut [0; 6]), Ok(())),
                _ => {
                    let full = tip - checkpoint == 64 || tip == u32::MAX;
                    assert_eq!(store.commit(&[]).is_err(), full);
                }
            }
            assert_eq!(store.head().depth(), depth);
        }
    }
    assert!(flushed > 500 && barred > 500, "{flushed} flushed, {barred} barred");
}

/// What is read of a head and shown of a store, of any words.
#[test]
fn random_heads_are_read() {
    let mut rng = Rng(6);
    for _ in 0..2000 {
        let store = random_store(&mut rng);
        let head = store.head();
        let slots = [0, 7, 8, usize::MAX, rng.bits() as usize];
        assert!(slots.iter().all(|&slot| head.is_open(slot) == head.issued(slot).is_some()));
        assert!(head.oldest_slot().is_none_or(|slot| head.is_open(slot)));
        assert_eq!(head.ends().len(), head.held_steps().min(64));
        assert!(head.highest_flush() >= head.checkpoint());
        assert!(store.entries().len() <= store.table().len());
        assert!((6..=IMAGE_BYTES).contains(&store.image_bytes()));
        assert!(!format!("{store:?}").is_empty());
    }
}
