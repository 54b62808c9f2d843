//! Each call as a side of a measurement on a scene, for whatever is measured. Each is made once before, and its answer tested.

use crate::baseline::{word, Memory};
use crate::scene::Scene;
use crate::subject::Subject;
use crate::timing::{repeated, restored, Side};
use cechnuol::raw::{DESK, NO_PRICE};
use model::rng::Rng;
use std::hint::black_box;

/// A call that leaves the store as it was, or as the call before left it.
fn steady<'a, S: Subject>(
    scene: &Scene,
    answer: u64,
    mut call: impl FnMut(&mut S, usize) -> u64 + 'a,
) -> Side<'a> {
    let mut store = S::of(scene);
    assert_eq!(call(&mut store, 0), answer);
    repeated(move |turn| call(black_box(&mut store), turn))
}

/// A call that changes the store or the words lent with it, which are restored before each.
fn moving<'a, S: Subject>(
    scene: &Scene,
    restore: impl Fn(&mut S, &mut Vec<u64>, usize) + 'a,
    mut call: impl FnMut(&mut S, &mut [u64], usize) -> u64 + 'a,
) -> Side<'a> {
    let mut memory = (S::of(scene), Vec::new());
    restore(&mut memory.0, &mut memory.1, 0);
    assert_eq!(call(&mut memory.0, &mut memory.1, 0), 0);
    restored(
        memory,
        move |(store, words), turn| restore(store, words, turn),
        move |(store, words), turn| call(black_box(store), black_box(words), turn),
    )
}

/// Restores journal and head; the scene's stores take turns.
fn steps_of<S: Subject>(scene: &Scene) -> impl Fn(&mut S, &mut Vec<u64>, usize) + '_ {
    move |store, _, turn| {
        let variant = scene.variant(turn);
        store.journal().copy_from_slice(&variant.journal);
        store.set_head(variant);
    }
}

/// Restores the table too.
fn all_of<S: Subject>(scene: &Scene) -> impl Fn(&mut S, &mut Vec<u64>, usize) + '_ {
    let steps = steps_of(scene);
    move |store: &mut S, words, turn| {
        store.table().copy_from_slice(&scene.table);
        steps(store, words, turn);
    }
}

pub fn clear<S: Subject>(scene: &Scene) -> Side<'_> {
    steady(scene, 0, |store: &mut S, _| store.clear(0))
}

/// Images or sheets, or room for them, which lie differently to the pages of memory: how table and image lie to each other is
/// chance else.
struct Images {
    bytes: Vec<u8>,
    length: usize,
    stride: usize,
}

impl Images {
    const COUNT: usize = 4;

    /// Of a scene's table.
    fn of(scene: &Scene) -> Images {
        Images::copies(&scene.image())
    }

    /// Room for the image of any state of a scene.
    fn room(scene: &Scene) -> Images {
        Images::copies(&vec![0; scene.image_bytes()])
    }

    /// Sheets of a scene's table.
    fn sheets(scene: &Scene) -> Images {
        Images::copies(&scene.sheet())
    }

    /// Room for the sheet of any state of a scene.
    fn sheet_room(scene: &Scene) -> Images {
        Images::copies(&vec![0; scene.sheet_bytes()])
    }

    fn copies(image: &[u8]) -> Images {
        const PAGE: usize = 4096;
        let stride = image.len().next_multiple_of(PAGE) + PAGE / Images::COUNT;
        let mut bytes = vec![0; Images::COUNT * stride];
        bytes.chunks_mut(stride).for_each(|chunk| chunk[..image.len()].copy_from_slice(image));
        Images { bytes, length: image.len(), stride }
    }

    fn turn(&mut self, turn: usize) -> &mut [u8] {
        let start = turn % Images::COUNT * self.stride;
        &mut self.bytes[start..start + self.length]
    }
}

pub fn load<S: Subject>(scene: &Scene) -> Side<'_> {
    let mut images = Images::of(scene);
    steady(scene, 0, move |store: &mut S, turn| store.load(0, images.turn(turn)))
}

/// The image of the checkpoint.
pub fn write_checkpoint<S: Subject>(scene: &Scene) -> Side<'_> {
    let (mut images, state) = (Images::of(scene), scene.variant(0).head.checkpoint);
    steady(scene, 0, move |store: &mut S, turn| store.write_state_image(state, images.turn(turn)))
}

/// The image of the tip, over all steps.
pub fn write_tip<S: Subject>(scene: &Scene) -> Side<'_> {
    let (mut images, state) = (Images::room(scene), scene.variant(0).head.tip);
    moving(scene, steps_of(scene), move |store: &mut S, _, turn| {
        store.write_state_image(state, images.turn(turn))
    })
}

/// The same image by a flush to the tip and the image of the checkpoint that it then is: on a copy of the store, which is made
/// before each and not timed.
pub fn flush_and_write<S: Subject>(scene: &Scene) -> Side<'_> {
    let (mut images, state) = (Images::room(scene), scene.variant(0).head.tip);
    moving(scene, all_of(scene), move |store: &mut S, _, turn| match store.flush(state) {
        0 => store.write_state_image(state, images.turn(turn)),
        refusal => refusal,
    })
}

pub fn load_sheet<S: Subject>(scene: &Scene) -> Side<'_> {
    let mut sheets = Images::sheets(scene);
    steady(scene, 0, move |store: &mut S, turn| store.load_sheet(0, sheets.turn(turn)))
}

/// The sheet of the checkpoint.
pub fn write_checkpoint_sheet<S: Subject>(scene: &Scene) -> Side<'_> {
    let (mut sheets, state) = (Images::sheets(scene), scene.variant(0).head.checkpoint);
    steady(scene, 0, move |store: &mut S, turn| store.write_state_sheet(state, sheets.turn(turn)))
}

/// The sheet of the tip, over all steps.
pub fn write_tip_sheet<S: Subject>(scene: &Scene) -> Side<'_> {
    let (mut sheets, state) = (Images::sheet_room(scene), scene.variant(0).head.tip);
    moving(scene, steps_of(scene), move |store: &mut S, _, turn| {
        store.write_state_sheet(state, sheets.turn(turn))
    })
}

pub fn restart<S: Subject>(scene: &Scene) -> Side<'_> {
    let mut images = Images::of(scene);
    moving(scene, steps_of(scene), move |store: &mut S, _, turn| store.restart(images.turn(turn)))
}

/// A commit of so many entries.
pub fn commit<S: Subject>(scene: &Scene, entries: usize) -> Side<'_> {
    let first = scene.variant(0);
    let start = first.head.end_of(scene.shape.held);
    let lists = scene.lists(entries);
    let restore = move |store: &mut S, words: &mut Vec<u64>, turn: usize| {
        store.journal()[start..start + entries].fill(0);
        store.set_head(first);
        words.clone_from(&lists[turn % lists.len()]);
    };
    moving(scene, restore, |store, words, _| store.commit(words))
}

pub fn commit_64<S: Subject>(scene: &Scene) -> Side<'_> {
    commit::<S>(scene, word::LIST_WORDS)
}

/// A commit of as many entries as a step has.
pub fn commit_step<S: Subject>(scene: &Scene) -> Side<'_> {
    commit::<S>(scene, scene.shape.step)
}

pub fn commit_1<S: Subject>(scene: &Scene) -> Side<'_> {
    commit::<S>(scene, 1)
}

/// A commit of 64 entries to a store that holds 64 steps.
pub fn refused_commit<S: Subject>(scene: &Scene) -> Side<'_> {
    let lists = scene.lists(word::LIST_WORDS);
    steady(scene, 13, move |store: &mut S, turn| store.commit(&lists[turn % lists.len()]))
}

/// All steps above the checkpoint rolled back.
pub fn roll_back<S: Subject>(scene: &Scene) -> Side<'_> {
    let state = scene.variant(0).head.checkpoint;
    moving(scene, steps_of(scene), move |store: &mut S, _, _| store.roll_back(state))
}

/// All steps flushed.
pub fn flush<S: Subject>(scene: &Scene) -> Side<'_> {
    let state = scene.variant(0).head.tip;
    moving(scene, all_of(scene), move |store: &mut S, _, _| store.flush(state))
}

/// A lookup of these offers in turn at the tip. The compiler cannot leave out what it gives beside its answer.
fn look_up<S: Subject>(scene: &Scene, offers: Vec<u32>, answer: u64) -> Side<'_> {
    let state = scene.variant(0).head.tip;
    let (mut price, mut since) = (0, 0);
    steady(scene, answer, move |store: &mut S, turn| {
        let offer = offers[turn % offers.len()];
        store.look_up(DESK, offer, state, black_box(&mut price), black_box(&mut since))
    })
}

/// An offer that has a price at the tip.
pub fn look_up_present<S: Subject>(scene: &Scene) -> Side<'_> {
    look_up::<S>(scene, scene.sought(true), 0)
}

/// An offer that has none.
pub fn look_up_absent<S: Subject>(scene: &Scene) -> Side<'_> {
    look_up::<S>(scene, scene.sought(false), NO_PRICE)
}

/// A read of the offers of a list.
pub fn issue<S: Subject>(scene: &Scene) -> Side<'_> {
    let first = scene.variant(0);
    let lists = scene.asked();
    let restore = move |store: &mut S, words: &mut Vec<u64>, turn: usize| {
        store.set_head(first);
        words.clone_from(&lists[turn % lists.len()]);
    };
    moving(scene, restore, |store, words, _| store.issue(DESK, 0, words))
}

/// The read set of slot 0 brought to the tip.
pub fn forward<S: Subject>(scene: &Scene) -> Side<'_> {
    let state = scene.variant(0).head.tip;
    let steps = steps_of(scene);
    let restore = move |store: &mut S, words: &mut Vec<u64>, turn: usize| {
        steps(store, words, turn);
        words.clone_from(&scene.reads);
    };
    moving(scene, restore, move |store, words, _| store.forward(DESK, 0, state, words))
}

/// Slot 0 closed.
pub fn release<S: Subject>(scene: &Scene) -> Side<'_> {
    moving(scene, steps_of(scene), |store: &mut S, _, _| store.release(DESK, 0))
}

/// A release of a slot that there is not: the store is tested, and then nothing else is done.
pub fn soundness<S: Subject>(scene: &Scene) -> Side<'_> {
    steady(scene, 3, |store: &mut S, _| store.release(DESK, 8))
}

/// The baseline's test of the store in the form that can be vectorised.
pub fn soundness_without_exits(scene: &Scene) -> Side<'_> {
    let memory = Memory::of(scene);
    assert!(memory.is_sound_without_exits());
    repeated(move |_| black_box(&memory).is_sound_without_exits().into())
}

/// One plain pass over the words lent: their sum.
pub fn plain_pass(scene: &Scene) -> Side<'_> {
    let sum = |words: &[u64]| words.iter().fold(0, |sum: u64, &word| sum.wrapping_add(word));
    let (table, journal) = (scene.table.clone(), scene.variant(0).journal.clone());
    repeated(move |_| sum(black_box(&table)).wrapping_add(sum(black_box(&journal))))
}

/// A batch of so many orders of all kinds, at any place of a read set of 64 offers.
pub fn price_batch<S: Subject>(orders: usize) -> Side<'static> {
    const KINDS: [u64; 6] = [0, 1, 2, 3, 20, 31];
    // So many that no predictor of branches learns them by heart: of 64 it does, and no caller's batches repeat.
    const BATCHES: usize = 1024;
    let mut rng = Rng::new(orders as u64);
    let reads: Vec<u64> = (0..64).map(|offer| word::put(offer * 1000, 1_000_000)).collect();
    let mut order = |_| {
        let (place, kind) = (rng.below(64) as u64, rng.pick(&KINDS));
        let amount = match kind {
            0 => 1_000_000,
            1 => 0,
            _ => rng.below(1000) as u64,
        };
        (kind << 56) | (amount << 31) | (place * 1000)
    };
    let mut out = vec![0; 64];
    // A batch is drawn again where an order meets an offer that an earlier one withdrew.
    let mut batch = || loop {
        let batch: Vec<u64> = (0..orders).map(&mut order).collect();
        if S::price_batch(&reads, &batch, &mut out) == 0 {
            return batch;
        }
    };
    let batches: Vec<Vec<u64>> = (0..BATCHES).map(|_| batch()).collect();
    repeated(move |turn| S::price_batch(black_box(&reads), black_box(&batches[turn % BATCHES]), &mut out))
}
