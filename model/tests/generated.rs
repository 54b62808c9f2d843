//! Generated scripts meet everything, and the model agrees with itself.

mod common;

use common::{all_answers, refusals, run, ANSWERS};
use model::batch::{order, order_offer, priced};
use model::caller::Caller;
use model::check::{all_short_runs, self_check};
use model::format::Format;
use model::gen::{
    items, script, Asked, Coverage, Flushed, Item, LookedUp, Numbers, Place, SheetHas, SHEETS_HAVE,
};
use model::script::Command;
use model::sheet::FAULTS;
use model::sound::CLAUSES;
use model::unit::Call;
use model::word;
use std::collections::BTreeSet;

/// What two hundred scripts of three hundred calls meet.
fn coverage() -> Coverage {
    let mut all = Coverage::default();
    for seed in 0..200 {
        all.add(script(seed, 300).1);
    }
    all
}

#[test]
fn generated_scripts_meet_everything() {
    let met = coverage();
    let expected: Vec<String> = all_answers();
    let missing: Vec<&String> = expected.iter().filter(|answer| !met.answers.contains(*answer)).collect();
    assert!(missing.is_empty(), "no script meets {missing:?}");
    let other: Vec<&String> = met.answers.iter().filter(|answer| !expected.contains(answer)).collect();
    assert!(other.is_empty(), "not of document 01: {other:?}");
    let mut unbroken = Vec::new();
    for (call, answers) in ANSWERS.iter().filter(|(_, answers)| answers.contains(&"refused 2")) {
        assert!(answers.contains(&"refused 1"));
        unbroken.extend(
            CLAUSES.iter().filter(|&&clause| !met.broken.contains(&(*call, clause))).map(|c| (call, c)),
        );
    }
    assert!(unbroken.is_empty(), "no script has {unbroken:?}");
    for length in [0, 1, 8000, 8001, 8192] {
        assert!(met.tables.contains(&length), "table {length}");
    }
    for length in [0, 1, 4096, 4097, 4608] {
        assert!(met.journals.contains(&length), "journal {length}");
    }
    let (desk, foyer) = (Some(Caller::Desk), Some(Caller::Foyer));
    for (call, caller, lengths) in [
        ("commit", None, &[0, 1, 64, 65][..]),
        ("issue", desk, &[0, 1, 15, 16, 17, 63, 64, 65]),
        ("issue", foyer, &[0, 1, 15, 16, 17, 63, 64, 65]),
        ("forward", desk, &[0, 1, 15, 16, 17, 63, 64, 65]),
        ("forward", foyer, &[0, 1, 15, 16, 17, 63, 64, 65]),
        ("price_batch", None, &[1, 64, 65]),
    ] {
        for &length in lengths {
            assert!(met.lists.contains(&(call, caller, length)), "{call} {caller:?} with {length} words");
        }
    }
    assert!(met.all_steps && met.last_tip);
}

/// Images and sheets are asked for with and without a state, of the checkpoint and above it, with more offers than the table
/// has words, and with bytes that are just enough, more, one too few or far too few; and restarts where the bytes lent do for
/// the checkpoint's image, for the tip's, for both and for neither.
#[test]
fn generated_scripts_ask_for_every_kind_of_image_and_sheet() {
    let Coverage { asked, most_offers, .. } = coverage();
    assert!(most_offers > 2000, "{most_offers} offers");
    let any = |kind: &dyn Fn(&Asked) -> bool| asked.iter().any(kind);
    for form in ["write_image", "write_image STATE", "write_sheet", "write_sheet STATE"] {
        for (above, large) in [(false, false), (true, false), (true, true)] {
            for more in -2..=1 {
                let asked = (form, above, large, more);
                assert!(any(&|it| (it.form, it.above, it.large, it.more) == asked), "{asked:?}");
            }
        }
    }
    for (fits, tip_fits) in [(false, false), (false, true), (true, false), (true, true)] {
        let asked = ("restart", fits, tip_fits);
        assert!(any(&|it| (it.form, it.more >= 0, it.tip_fits) == asked), "{asked:?}");
    }
    assert!(!any(&|it| it.large && !it.above), "the table holds the checkpoint");
}

/// Sheets are loaded and written with no row, one and several, with rows of one seat and of all 32, with the first and the last
/// seat and row, with the last seat of a row and the first of the next, and with the least and the most price; some are loaded
/// with more offers than the longest table has words; and those that are no sheets have each fault first, and say counts of rows
/// from 0 to the most.
#[test]
fn generated_scripts_have_every_kind_of_sheet() {
    let Coverage { sheets, faults, counts, .. } = coverage();
    let all = SHEETS_HAVE.iter().flat_map(|&has| [("load_sheet", has), ("write_sheet", has)]);
    // A state with so many offers takes more commits than most scripts make.
    let all = all.filter(|it| *it != ("write_sheet", SheetHas::ManyOffers));
    let missing: Vec<_> = all.filter(|it| !sheets.contains(it)).collect();
    assert!(missing.is_empty(), "{missing:?}");
    assert_eq!(faults, BTreeSet::from(FAULTS));
    assert_eq!(counts, BTreeSet::from([0, u32::MAX]));
}

/// Every kind of lookup that can be answered.
fn all_lookups() -> BTreeSet<LookedUp> {
    let places = [None, Some(Place::Only), Some(Place::First), Some(Place::Middle), Some(Place::Last)];
    let flags = |place| {
        (0..32).map(move |bits| {
            let [priced, repeats, in_table, below, above] = [0, 1, 2, 3, 4].map(|bit| bits >> bit & 1 == 1);
            LookedUp { priced, place, repeats, in_table, below, above }
        })
    };
    places.into_iter().flat_map(flags).filter(can_be).collect()
}

/// Whether there is such a lookup: the table answers with what it has, and the first step searched is applied to it.
fn can_be(lookup: &LookedUp) -> bool {
    let LookedUp { priced, place, repeats, in_table, .. } = *lookup;
    match place {
        None => priced == in_table && !repeats,
        Some(Place::Only | Place::First) if priced => in_table || !repeats,
        Some(Place::Only | Place::First) => in_table != repeats,
        Some(Place::Middle | Place::Last) => true,
    }
}

/// Generated scripts look offers up wherever the last step naming them stands: the only one searched, the first, one in the
/// middle or the last; where it puts a price, another one or the same, or removes one or none; where the table answers, which
/// has the offer or not; and all that with and without steps that name the offer and are not searched, held below the
/// checkpoint or above the state named.
#[test]
fn generated_scripts_make_every_kind_of_lookup() {
    let met: BTreeSet<LookedUp> = (0..800).flat_map(|seed| script(seed, 300).1.lookups).collect();
    assert_eq!(met, all_lookups());
    assert_eq!(met.len(), 112);
}

/// Every kind of flush to a kept state: the checkpoint's map fits the table, and depth 0 bars no state. Where numbers of 32 bits
/// would not do, every state is above the tip less the depth.
fn all_flushes() -> BTreeSet<Flushed> {
    let mut flushes = BTreeSet::new();
    for (still, fits) in [(true, true), (false, true), (false, false)] {
        let kind = |deep, above, numbers| Flushed { deep, still, above, fits, numbers };
        flushes.extend([-1, 0].map(|above| kind(false, above, Numbers::Fit)));
        flushes.extend([-1, 0, 1].map(|above| kind(true, above, Numbers::Fit)));
        flushes.extend([Numbers::BelowFirst, Numbers::PastLast].map(|numbers| kind(true, 1, numbers)));
    }
    flushes
}

/// Generated scripts flush stores with a depth and without one, to the checkpoint and to other states, just below the highest
/// that the depth lets through, to it and just above it, whether the table has room or not, and where numbers of 32 bits would
/// not do; and they clear and load with every depth from 0 to 5, the largest and those beside it.
#[test]
fn generated_scripts_make_every_kind_of_flush() {
    let Coverage { flushes, depths, .. } = coverage();
    assert_eq!(flushes, all_flushes());
    assert_eq!(flushes.len(), 21);
    for call in ["clear", "load", "load_sheet"] {
        for depth in (0..=5).chain(62..=64) {
            assert!(depths.contains(&(call, depth)), "{call} {depth}");
        }
    }
}

/// A sixteenths order that ran.
#[derive(Clone, Copy, Debug, PartialEq, Eq, PartialOrd, Ord)]
struct Kept {
    kind: u8,
    /// Whether the sixteenths were a whole number of units and a half.
    half: bool,
    /// How far the amount was above the rounded price: two or more as 2, two or more below as -2.
    above: i64,
}

impl Kept {
    /// A sixteenths order on a price.
    fn of(kind: u8, amount: u32, price: u32) -> Kept {
        let rounded = priced(&[word::entry(5, Some(price))], &[order(kind, 0, 5)]).expect("the order runs");
        let above = i64::from(amount) - i64::from(word::price(rounded[0]));
        let half = u64::from(price) * u64::from(kind - 15) % 16 == 8;
        Kept { kind, half, above: above.clamp(-2, 2) }
    }
}

/// The sixteenths orders of a batch, if it runs.
fn kept_in(reads: &[u64], orders: &[u64]) -> Vec<Kept> {
    let mut kept = Vec::new();
    if priced(reads, orders).is_err() {
        return kept;
    }
    let mut words = reads.to_vec();
    for &order in orders {
        let place =
            words.iter().position(|&word| word::offer(word) == order_offer(order)).expect("it is read");
        let (kind, amount) = ((order >> 56) as u8, (order >> 31) as u32 % (1 << 25));
        if let (16..=31, Some(price)) = (kind, word::shown(words[place])) {
            kept.push(Kept::of(kind, amount, price));
        }
        words[place] = priced(&[words[place]], &[order]).expect("the batch runs")[0];
    }
    kept
}

/// Every kind that keeps sixteenths meets halves, but 31, which keeps the whole price, and amounts one below the rounded price,
/// equal to it and one above it.
#[test]
fn generated_scripts_round_at_every_kind() {
    let mut met = BTreeSet::new();
    for item in (0..150).flat_map(|seed| items(seed, 300).0) {
        if let Item::Command(Command::Call(Call::PriceBatch { reads, orders, .. })) = item {
            met.extend(kept_in(&reads, &orders));
        }
    }
    for kind in 16..=31 {
        let any = |met_so: &dyn Fn(&Kept) -> bool| met.iter().any(|kept| kept.kind == kind && met_so(kept));
        assert_eq!(any(&|kept| kept.half && kept.above < 0), kind != 31, "halves of kind {kind}");
        for above in -1..=1 {
            assert!(any(&|kept| kept.above == above), "kind {kind} with an amount {above} above");
        }
    }
}

/// A script says what the generator did: run on its own, it meets the same, and a seed gives one script.
#[test]
fn a_seed_gives_one_script() {
    for seed in 0..5 {
        let (text, _) = script(seed, 200);
        assert_eq!(text, script(seed, 200).0);
        assert_ne!(text, script(seed + 1, 200).0);
        assert!(run(&text).lines().count() > 200);
    }
}

#[test]
fn unit_against_plain_list() {
    let report = self_check(1_000_000, 2000).unwrap_or_else(|difference| panic!("{difference}"));
    assert_eq!(report.runs, 2000);
    assert!(report.accepted > 60_000 && report.calls - report.accepted > 30_000, "{report}");
    assert!(report.states > 10_000 && report.large_states > 1_000 && report.quoted > 300_000, "{report}");
    assert!(report.compared > 15_000 && report.by_both > 3_000, "{report}");
    assert!(report.loads.len() == 2 && report.loads.values().all(|&count| count > 700), "{report}");
    let in_both = &report.written_in_both;
    assert!(in_both.len() == 2 && in_both.values().all(|&count| count > 700), "{report}");
    // Prices agree in two stores with different flushes; since when they stand does not always.
    assert!(report.since_differs > 1_500, "{report}");
    assert!(report.lookups.len() == 4 && report.lookups.values().all(|&count| count > 1_000), "{report}");
    assert_eq!(report.looked_up, all_lookups());
    // First loads with a depth that no store may have, and flushes that the depth bars or lets through.
    let refused = |call: &'static str| report.refusals.get(&(call, 20)).copied().unwrap_or(0);
    assert!(refused("load") > 40 && refused("load_sheet") > 40 && refused("flush") > 2_000, "{report}");
    assert!(report.deep_flushes > 700 && report.depths_differ > 10_000 && report.barred > 5_000, "{report}");
    assert_eq!(report.flushed, all_flushes());
    let named = |call: &str| !["clear", "restart", "price_batch"].contains(&call);
    for (call, answers) in ANSWERS.iter().filter(|(call, _)| named(call)) {
        for number in refusals(answers) {
            // In the named calls 1 and 2 do not arise, nor 6 and 18 at a forward, which is lent what the issue filled.
            let arises = number > 2 && !matches!((*call, number), ("forward" | "forward foyer", 6 | 18));
            assert_eq!(report.refusals.contains_key(&(*call, number)), arises, "{call} {number}");
        }
    }
}

/// Every run of up to five calls that are accepted, on tables of 1 and 2 words and journals of 1 and 3, loaded by an image or
/// by a sheet with depths from 0 to 2.
#[test]
fn all_short_runs_agree() {
    for (depth, format, table, journal) in [
        (0, Format::Image, 1, 1),
        (0, Format::Image, 2, 3),
        (1, Format::Sheet, 1, 3),
        (2, Format::Image, 2, 3),
    ] {
        let calls = all_short_runs(depth, format, table, journal, 5);
        let calls = calls.unwrap_or_else(|difference| panic!("{difference}"));
        assert!(calls > 100_000, "{calls} calls");
    }
}
