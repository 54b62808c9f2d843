//! The depth that must stay (request Q-6): which flushes it bars, what it does not bar, and how a store gets and keeps it.

use model::caller::Caller::Desk;
use model::format::Format::{Image, Sheet};
use model::ground::Ground;
use model::head::Head;
use model::plain::Plain;
use model::store::Store;
use model::word::entry;

/// Depths that no store may have.
const ABOVE: [u32; 6] = [64, 65, 127, 256, 1 << 31, u32::MAX];

/// The image of no offers as a state.
fn image(state: u32) -> Vec<u8> {
    [&state.to_be_bytes()[..], &[0, 0]].concat()
}

/// A store with a depth that is loaded as a state and takes so many empty commits, and the plain list beside it.
fn pair(depth: u32, state: u32, steps: u32) -> (Store, Plain) {
    let mut store = Store::of_lengths(1, 1);
    assert_eq!(store.load(depth, Image, &image(state)), Ok(()));
    let mut plain = Plain::load(depth, Image, &image(state), 1, 1).expect("the image loads");
    for _ in 0..steps {
        assert_eq!((store.commit(&[]), plain.commit(&[])), (Ok(()), Ok(())));
    }
    (store, plain)
}

/// Every depth, every number of steps and every kept state, at the first numbers, in the middle and at the last ones: a flush to
/// the checkpoint passes, and any other where as many states lie above its state as the depth says.
#[test]
fn flushes_that_the_depth_bars() {
    for depth in 0..=63 {
        for steps in 0..=64 {
            for first in [0, 1, 1 << 31, u32::MAX - steps] {
                let (store, plain) = pair(depth, first, steps);
                for above in 0..=steps {
                    let state = first + steps - above;
                    let passes = state == first || above >= depth;
                    let outcome = if passes { Ok(()) } else { Err(Ground::TooDeep) };
                    assert_eq!(store.clone().flush(state), outcome, "{state}, {first} and {steps} steps");
                    assert_eq!(plain.clone().flush(state), outcome, "{state}, {first} and {steps} steps");
                }
            }
        }
    }
}

/// A state that is not kept is 11, whatever the depth.
#[test]
fn states_that_are_not_kept() {
    for depth in [0, 1, 2, 3, 63] {
        let (store, plain) = pair(depth, 7, 2);
        for state in [0, 6, 10, 11, 72, u32::MAX] {
            assert_eq!(store.clone().flush(state), Err(Ground::State), "{state}");
            assert_eq!(plain.clone().flush(state), Err(Ground::State), "{state}");
        }
    }
}

/// A depth above 63 is turned away before anything else is looked at but the lengths, and everything stays.
#[test]
fn depths_that_no_store_may_have() {
    let mut store = Store::of_lengths(2, 3);
    assert_eq!(store.clear(5), Ok(()));
    assert_eq!(store.commit(&[entry(5, Some(1))]), Ok(()));
    let before = store.clone();
    let sheet = [7u32.to_be_bytes(), [0; 4]].concat();
    for depth in ABOVE {
        assert_eq!(store.clear(depth), Err(Ground::TooDeep));
        for bytes in [image(7), sheet.clone(), vec![]] {
            assert_eq!(store.load(depth, Image, &bytes), Err(Ground::TooDeep));
            assert_eq!(store.load(depth, Sheet, &bytes), Err(Ground::TooDeep));
            assert_eq!(Plain::load(depth, Image, &bytes, 2, 3).err(), Some(Ground::TooDeep));
        }
        assert_eq!(store, before);
        assert_eq!(Store::of_lengths(0, 3).clear(depth), Err(Ground::Length));
        assert_eq!(Store::of_lengths(2, 4097).load(depth, Image, &[]), Err(Ground::Length));
    }
    for depth in 0..=63 {
        assert_eq!(store.clear(depth), Ok(()));
        assert_eq!(store.head, Head::at_rest(0, 0, depth));
        assert_eq!(store.load(depth, Image, &[]), Err(Ground::Image));
        assert_eq!(store.load(63 - depth, Image, &image(7)), Ok(()));
        assert_eq!(store.head, Head::at_rest(7, 0, 63 - depth));
        assert_eq!(store.load(depth, Sheet, &sheet), Ok(()));
        assert_eq!(store.head, Head::at_rest(7, 0, depth));
    }
}

/// No other call looks at the depth of a sound head, and none changes it.
#[test]
fn the_depth_bars_nothing_but_flushes() {
    let mut stores = [0, 1, 62, 63].map(|depth| pair(depth, 7, 3).0);
    type Step = fn(&mut Store) -> Result<(), Ground>;
    let calls: [Step; 9] = [
        |store| store.commit(&[entry(5, Some(1))]),
        |store| store.issue(Desk, 0, &mut [entry(5, None)]),
        |store| store.roll_back(10),
        |store| store.roll_back(7),
        |store| store.flush(7),
        |store| store.commit(&[]),
        |store| store.forward(Desk, 0, 8, &mut [entry(5, None)]),
        |store| store.write(Image, None, &mut [0; 6]).map(|_| ()),
        |store| store.restart(&mut [0; 6]),
    ];
    for (number, call) in calls.iter().enumerate() {
        for store in &mut stores {
            let depth = store.head.depth;
            assert_eq!(call(store), Ok(()), "call {number} with depth {depth}");
            assert_eq!(store.head.depth, depth);
        }
        let shallow: Vec<Store> = stores
            .iter()
            .cloned()
            .map(|mut store| {
                store.head.depth = 0;
                store
            })
            .collect();
        assert!(shallow.iter().all(|store| *store == shallow[0]), "call {number}");
    }
}
