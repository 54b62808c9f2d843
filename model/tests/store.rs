//! The store: soundness clause by clause, refusals that change nothing, and what the calls leave in memory.

use model::batch::{order, price_batch};
use model::caller::Caller::{Desk, Foyer};
use model::format::Format::{Image, Sheet};
use model::ground::Ground;
use model::head::Head;
use model::quote::{Quote, Since};
use model::sound::{first_broken, Clause};
use model::store::Store;
use model::unit::{Answer, Call, Unit};
use model::word::{entry, shown};

/// Offers 5, 7 and 9 in a table of 4; a slot open since 10, checkpoint 11, tip 12, depth 0; steps of 2 words in a journal of 100.
fn sample() -> Store {
    let mut store = Store::of_lengths(4, 100);
    store.table[..3].copy_from_slice(&[entry(5, Some(1)), entry(7, Some(1)), entry(9, Some(700))]);
    store.journal[..4].copy_from_slice(&[
        entry(5, Some(1)),
        entry(7, Some(1)),
        entry(5, None),
        entry(8, Some(1)),
    ]);
    store.head = Head { oldest: 10, checkpoint: 11, tip: 12, ..Head::at_rest(0, 3, 0) };
    store.head.held[0] = true;
    store.head.issued[0] = 10;
    store.head.ends[..2].copy_from_slice(&[2, 4]);
    store
}

fn broken(store: &Store) -> Option<Clause> {
    first_broken(&store.table, &store.journal, &store.head)
}

type Damage = fn(&mut Store);

/// For each clause some ways to break it and no clause that is tested before it.
const DAMAGES: [(Clause, &[Damage]); 18] = [
    (Clause::OldestAboveCheckpoint, &[|s| s.head.oldest = 12, |s| s.head.oldest = u32::MAX]),
    (Clause::CheckpointAboveTip, &[|s| s.head.tip = 10, |s| s.head.checkpoint = 13, |s| s.head.tip = 0]),
    (Clause::TooManySteps, &[|s| s.head.tip = 75, |s| s.head.tip = u32::MAX]),
    (Clause::UsedPastTable, &[|s| s.head.used = 5, |s| s.head.used = u64::MAX]),
    (Clause::TableKind, &[|s| s.table[0] = entry(5, None), |s| s.head.used = 4]),
    (Clause::TableOrder, &[|s| s.table[1] = entry(5, Some(1)), |s| s.table[2] = entry(6, Some(1))]),
    (Clause::TableRest, &[|s| s.table[3] = 1, |s| s.head.used = 2, |s| s.table[3] = u64::MAX]),
    (Clause::MarkFalls, &[|s| s.head.ends[1] = 1, |s| s.head.tip = 13, |s| s.head.ends[1] = 0]),
    (Clause::MarkPastJournal, &[|s| s.head.ends[1] = 101, |s| s.head.ends[1] = u64::MAX]),
    (Clause::StepTooLong, &[|s| s.head.ends[1] = 67, |s| s.head.ends[1] = 100]),
    (Clause::MarkNotInUse, &[|s| s.head.ends[2] = 4, |s| s.head.ends[63] = 1]),
    (Clause::StepWord, &[|s| s.journal[0] = 0x0000_0005_0000_0001, |s| s.journal[2] = 1]),
    (Clause::StepOrder, &[|s| s.journal[1] = entry(5, None), |s| s.journal[2] = entry(8, None)]),
    (Clause::JournalRest, &[|s| s.journal[4] = 1, |s| s.journal[99] = 1 << 63, |s| s.head.ends[1] = 3]),
    (Clause::ClosedSlot, &[|s| s.head.issued[7] = 10, |s| s.head.held[0] = false]),
    (Clause::SlotAboveCheckpoint, &[|s| s.head.issued[0] = 12, |s| s.head.issued[0] = u32::MAX]),
    (
        Clause::OldestNotLeast,
        &[|s| s.head.issued[0] = 11, |s| s.head.issued[0] = 9, |s| s.head.held[1] = true],
    ),
    (Clause::DepthAboveMost, &[|s| s.head.depth = 64, |s| s.head.depth = 256, |s| s.head.depth = u32::MAX]),
];

#[test]
fn each_clause_is_tested() {
    assert_eq!(broken(&sample()), None);
    for (clause, damages) in DAMAGES {
        for (index, damage) in damages.iter().enumerate() {
            let mut store = sample();
            damage(&mut store);
            assert_eq!(broken(&store), Some(clause), "way {index}");
        }
    }
}

#[test]
fn all_calls_but_clear_and_load_refuse_an_unsound_store() {
    let list = vec![entry(5, None)];
    let calls = [
        Call::Write { format: Image, state: None },
        Call::Write { format: Image, state: Some(11) },
        Call::Write { format: Image, state: Some(12) },
        Call::Write { format: Sheet, state: None },
        Call::Write { format: Sheet, state: Some(11) },
        Call::Write { format: Sheet, state: Some(12) },
        Call::Restart,
        Call::Commit { list: list.clone() },
        Call::RollBack { state: 11 },
        Call::Flush { state: 12 },
        Call::LookUp { caller: Foyer, offer: 5, state: 11 },
        Call::Issue { caller: Foyer, slot: 7, list: list.clone() },
        Call::Forward { caller: Desk, slot: 0, state: 12, with: Some(list) },
        Call::Release { caller: Desk, slot: 0 },
    ];
    for damage in DAMAGES.iter().flat_map(|(_, damages)| *damages) {
        let mut unit = Unit { store: sample(), bytes: vec![0; 30], ..Unit::default() };
        damage(&mut unit.store);
        for call in &calls {
            let before = unit.clone();
            assert_eq!(unit.serve(call).answer, Answer::Refused(Ground::Unsound), "{call:?}");
            assert_eq!(unit, before);
        }
        assert_eq!(unit.serve(&Call::Clear { depth: 0 }).answer, Answer::Done);
        assert_eq!(broken(&unit.store), None);
    }
    for call in calls {
        let mut unit = Unit { store: sample(), bytes: vec![0; 30], ..Unit::default() };
        assert!(!matches!(unit.serve(&call).answer, Answer::Refused(_)), "{call:?}");
        assert_eq!(broken(&unit.store), None);
    }
}

#[test]
fn stores_at_the_ends_of_soundness() {
    let ends: [Damage; 8] = [
        |s| s.head.depth = 63,
        |s| s.head.depth = 1,
        |s| {
            s.table[3] = {
                s.head.used = 4;
                entry(10, Some(0))
            }
        },
        |s| {
            (2..66).for_each(|at| {
                s.journal[at] = entry(at as u32, Some(0));
                s.head.ends[1] = 66
            })
        },
        |s| {
            s.head.tip = 74;
            s.head.ends[2..].fill(4)
        },
        |s| {
            s.head.held[7] = true;
            s.head.issued[7] = 11
        },
        |s| {
            s.head.held = [true; 8];
            s.head.issued = [10; 8]
        },
        |s| {
            s.head.checkpoint = 10;
            s.head.held[0] = false;
            s.head.issued[0] = 0
        },
    ];
    for end in ends {
        let mut store = sample();
        end(&mut store);
        assert_eq!(broken(&store), None);
    }
}

#[test]
fn a_commit_writes_only_the_unused_end() {
    let before = sample();
    let mut store = before.clone();
    let list = [entry(1, Some(3)), entry(2, None)];
    assert_eq!(store.commit(&list), Ok(()));
    assert_eq!(store.table, before.table);
    assert_eq!(store.journal[..4], before.journal[..4]);
    assert_eq!(store.journal[4..6], list);
    assert_eq!(store.journal[6..], before.journal[6..]);
    let mut head = before.head.clone();
    head.tip = 13;
    head.ends[2] = 6;
    assert_eq!(store.head, head);
}

#[test]
fn a_flush_to_the_checkpoint_changes_nothing() {
    let mut store = sample();
    assert_eq!(store.flush(11), Ok(()));
    assert_eq!(store, sample());
}

#[test]
fn released_steps_go_and_the_rest_move() {
    let mut store = sample();
    assert_eq!(store.release(Desk, 0), Ok(()));
    assert_eq!((store.head.oldest, store.head.checkpoint, store.head.tip), (11, 11, 12));
    assert_eq!(store.journal[..3], [entry(5, None), entry(8, Some(1)), 0]);
    assert_eq!(store.head.ends[..2], [2, 0]);
}

#[test]
fn a_read_keeps_its_own_offers() {
    let mut store = sample();
    let mut reads = [entry(4, Some(9)), entry(7, None), entry(8, None)];
    assert_eq!(store.forward(Desk, 0, 12, &mut reads), Ok(()));
    assert_eq!(reads, [entry(4, Some(9)), entry(7, Some(1)), entry(8, Some(1))]);
}

/// The step to 11 is held and not above the checkpoint; the step to 12 removes offer 5 and puts offer 8.
#[test]
fn lookups_say_since_when() {
    let store = sample();
    let quotes = [
        ((5, 11), Some(1), Since::Table),
        ((7, 11), Some(1), Since::Table),
        ((8, 11), None, Since::Table),
        ((5, 12), None, Since::State(12)),
        ((7, 12), Some(1), Since::Table),
        ((8, 12), Some(1), Since::State(12)),
        ((9, 12), Some(700), Since::Table),
        ((0, 12), None, Since::Table),
    ];
    for ((offer, state), price, since) in quotes {
        assert_eq!(store.look_up(offer, state), Ok(Quote { price, since }), "{offer} at {state}");
    }
}

#[test]
fn sixty_four_steps_of_sixty_four_words_fill_the_journal() {
    let mut store = Store::of_lengths(8000, 4096);
    assert_eq!(store.clear(0), Ok(()));
    for step in 0..64 {
        let list: Vec<u64> = (0..64).map(|offer| entry(step * 64 + offer, Some(step))).collect();
        assert_eq!(store.commit(&list), Ok(()));
    }
    assert_eq!(store.commit(&[]), Err(Ground::Steps));
    for offer in (0..4096).step_by(63) {
        let quote = Quote { price: Some(offer / 64), since: Since::State(offer / 64 + 1) };
        assert_eq!(store.look_up(offer, 64), Ok(quote), "{offer}");
    }
    assert_eq!(store.look_up(4095, 63), Ok(Quote { price: None, since: Since::Table }));
    assert_eq!(store.flush(64), Ok(()));
    assert_eq!(store.head.used, 4096);
    assert_eq!(store.journal, vec![0; 4096]);
    assert_eq!(store.look_up(4095, 64), Ok(Quote { price: Some(63), since: Since::Table }));
}

#[test]
fn counts_stop_at_their_largest_value() {
    let mut store = sample();
    store.tally.committed = u64::MAX;
    store.tally.rolled_back = u64::MAX - 1;
    store.tally.flushed = u64::MAX - 1;
    assert_eq!(store.commit(&[]), Ok(()));
    assert_eq!(store.flush(12), Ok(()));
    assert_eq!(store.roll_back(12), Ok(()));
    assert_eq!(
        (store.tally.committed, store.tally.rolled_back, store.tally.flushed),
        (u64::MAX, u64::MAX, u64::MAX)
    );
    assert_eq!(store.commit(&[]), Ok(()));
    assert_eq!(store.commit(&[]), Ok(()));
    assert_eq!(store.flush(14), Ok(()));
    assert_eq!((store.tally.committed, store.tally.flushed), (u64::MAX, u64::MAX));
}

/// The price that one order on an offer makes of the offer's price, or the ground that refuses the batch.
fn after_order(price: Option<u32>, kind: u8, amount: u32) -> Result<u32, Ground> {
    let mut output = [0];
    let count = price_batch(&[entry(5, price)], &[order(kind, amount, 5)], &mut output)?;
    let after = shown(output[0]).expect("the order leaves a price");
    assert_eq!((count, output[0]), (1, entry(5, Some(after))));
    Ok(after)
}

/// Price, kind and amount of a sixteenths order, and the new price as document 02 has it.
const SIXTEENTHS: [(u32, u8, u32, u32); 14] = [
    (1001, 27, 0, 751),
    (1001, 27, 800, 800),
    (1001, 31, 0, 1001),
    (0, 16, 0, 0),
    (7, 16, 0, 0),
    (8, 16, 0, 1),
    (15, 16, 0, 1),
    (23, 16, 0, 1),
    (24, 16, 0, 2),
    (8, 16, 2, 2),
    (u32::MAX, 31, 0, u32::MAX),
    (u32::MAX, 30, 0, 4_026_531_839),
    (1, 23, 0, 1),
    (1, 22, 0, 0),
];

#[test]
fn sixteenths() {
    for (price, kind, amount, after) in SIXTEENTHS {
        assert_eq!(after_order(Some(price), kind, amount), Ok(after), "{price} {kind} {amount}");
    }
    for kind in [15, 32] {
        assert_eq!(after_order(Some(1001), kind, 0), Err(Ground::Order), "kind {kind}");
    }
    for (kind, amount) in (16..=31).flat_map(|kind| [(kind, 0), (kind, 800)]) {
        assert_eq!(after_order(None, kind, amount), Err(Ground::NoPrice), "{kind} {amount}");
    }
}

/// The whole number of units that is nearest to price × (kind − 15) / 16, of two equally near ones the upper. It is searched: from
/// the price to a neighbour, far ones first and those beside it last, wherever that is nearer.
fn nearest_to_sixteenths(price: u32, kind: u8) -> u32 {
    let sixteenths = i64::from(price) * i64::from(kind - 15);
    let distance = |units: i64| (16 * units - sixteenths).abs();
    // Nearer, or as near and the upper.
    let better = |one: i64, other: i64| (distance(one), other) < (distance(other), one);
    let mut units = i64::from(price);
    for step in (0..=32).rev().map(|bit| 1 << bit) {
        for neighbour in [units - step, units + step] {
            if better(neighbour, units) {
                units = neighbour;
            }
        }
    }
    assert!(!better(units - 1, units) && !better(units + 1, units));
    u32::try_from(units).expect("what is kept of a price is a price")
}

/// Every sixteenths order gives what the words of document 02 say: the nearest unit, then the amount if that is more.
#[test]
fn sixteenths_are_the_nearest_unit() {
    const MOST: u32 = (1 << 25) - 1;
    for kind in 16..=31 {
        for price in [0, 1, 7, 8, 23, 24, 1 << 31, u32::MAX] {
            let kept = nearest_to_sixteenths(price, kind);
            let beside = [kept.checked_sub(1), Some(kept), kept.checked_add(1)].into_iter().flatten();
            for amount in [0, 1, MOST].into_iter().chain(beside).filter(|&amount| amount <= MOST) {
                let after = if amount > kept { amount } else { kept };
                assert_eq!(after_order(Some(price), kind, amount), Ok(after), "{price} {kind} {amount}");
            }
        }
    }
}

#[test]
fn every_kind_of_order_is_known_or_not() {
    for kind in 0..=255u8 {
        let known = kind <= 3 || (16..=31).contains(&kind);
        let outcome = price_batch(&[entry(5, Some(9))], &[order(kind, 0, 5)], &mut [0]);
        assert_eq!(outcome, if known { Ok(1) } else { Err(Ground::Order) }, "kind {kind}");
    }
}
