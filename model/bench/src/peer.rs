//! Other stores that do lookups and commits.

use crate::lmdb::Lmdb;
use crate::scene::Scene;
use crate::sqlite::Sqlite;
use crate::timing::{repeated, Side};
use std::cell::RefCell;

/// A store of prices by offer.
pub trait Peer {
    /// Puts and removes the offers of a list in one transaction.
    fn commit(&mut self, list: &[u64]);
    /// The price of an offer, read in a transaction of its own.
    fn look_up(&mut self, offer: u32) -> Option<u32>;
}

/// A peer's name, and how an empty store of it is made where it is installed.
pub struct Kind {
    pub name: &'static str,
    make: fn() -> Option<Box<dyn Peer>>,
}

/// The peers.
pub const KINDS: [Kind; 3] = [
    Kind { name: "LMDB, no sync", make: || Some(Box::new(Lmdb::open(false)?)) },
    Kind { name: "LMDB, no sync, write map", make: || Some(Box::new(Lmdb::open(true)?)) },
    Kind { name: "SQLite in memory", make: || Some(Box::new(Sqlite::open()?)) },
];

/// The versions that are installed.
pub fn versions() -> Vec<String> {
    [Lmdb::version(), Sqlite::version()].into_iter().flatten().collect()
}

/// A store that holds the state at the tip of a scene's first store.
pub struct Loaded(RefCell<Box<dyn Peer>>);

impl Kind {
    /// A store with what a scene's first store holds at its tip; none where the peer is not installed.
    pub fn load(&self, scene: &Scene) -> Option<Loaded> {
        let mut peer = (self.make)()?;
        scene.table[..scene.shape.offers].chunks(64).for_each(|puts| peer.commit(puts));
        (0..scene.shape.held).for_each(|step| peer.commit(scene.step(step)));
        Some(Loaded(RefCell::new(peer)))
    }
}

impl Loaded {
    /// Lookups of offers that have a price.
    pub fn look_up(&self, scene: &Scene) -> Side<'_> {
        let offers = scene.sought(true);
        assert!(offers.iter().all(|&offer| self.0.borrow_mut().look_up(offer).is_some()));
        let mut peer = self.0.borrow_mut();
        repeated(move |turn| peer.look_up(offers[turn % offers.len()]).map_or(0, u64::from))
    }

    /// Commits of two lists in turn.
    pub fn commit(&self, scene: &Scene) -> Side<'_> {
        let lists = scene.lists(64);
        let mut peer = self.0.borrow_mut();
        repeated(move |turn| {
            peer.commit(&lists[turn % 2]);
            0
        })
    }
}

#[cfg(test)]
mod tests {
    use super::KINDS;
    use crate::baseline::word::{none, put};

    #[test]
    fn each_peer_puts_and_removes() {
        for mut peer in KINDS.iter().filter_map(|kind| (kind.make)()) {
            peer.commit(&[put(5, 1200), put(9, 0)]);
            peer.commit(&[none(5), none(7), put(9, 700)]);
            assert_eq!([5, 7, 9].map(|offer| peer.look_up(offer)), [None, None, Some(700)]);
            peer.commit(&[put(5, 0)]);
            assert_eq!(peer.look_up(5), Some(0));
        }
    }
}
