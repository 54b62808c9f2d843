//! The baseline on lent words as something that is measured.

use crate::baseline::{self, Caller, LentWords};
use crate::scene::{Scene, Variant};
use crate::subject::{code, quote_code, Subject};

impl Subject for LentWords {
    fn of(scene: &Scene) -> LentWords {
        let Variant { journal, words, .. } = scene.variant(0);
        LentWords { table: scene.table.clone(), journal: journal.clone(), head: *words, tally: [0; 3] }
    }

    fn table(&mut self) -> &mut [u64] {
        &mut self.table
    }

    fn journal(&mut self) -> &mut [u64] {
        &mut self.journal
    }

    fn set_head(&mut self, variant: &Variant) {
        self.head = variant.words;
    }

    fn clear(&mut self, depth: u32) -> u64 {
        code(self.any(|store| store.clear(depth)))
    }

    fn load(&mut self, depth: u32, bytes: &[u8]) -> u64 {
        code(self.any(|store| store.load(depth, bytes)))
    }

    fn load_sheet(&mut self, depth: u32, bytes: &[u8]) -> u64 {
        code(self.any(|store| store.load_sheet(depth, bytes)))
    }

    fn write_image(&mut self, bytes: &mut [u8]) -> u64 {
        code(self.query(|store| store.write_image(bytes)))
    }

    fn write_state_image(&mut self, state: u32, bytes: &mut [u8]) -> u64 {
        code(self.query(|store| store.write_state_image(state, bytes)))
    }

    fn write_sheet(&mut self, bytes: &mut [u8]) -> u64 {
        code(self.query(|store| store.write_sheet(bytes)))
    }

    fn write_state_sheet(&mut self, state: u32, bytes: &mut [u8]) -> u64 {
        code(self.query(|store| store.write_state_sheet(state, bytes)))
    }

    fn restart(&mut self, bytes: &mut [u8]) -> u64 {
        code(self.call(|store| store.restart(bytes)))
    }

    fn commit(&mut self, list: &[u64]) -> u64 {
        code(self.call(|store| store.commit(list)))
    }

    fn roll_back(&mut self, state: u32) -> u64 {
        code(self.call(|store| store.roll_back(state)))
    }

    fn flush(&mut self, state: u32) -> u64 {
        code(self.call(|store| store.flush(state)))
    }

    fn look_up(&mut self, _caller: u32, offer: u32, state: u32, price: &mut u64, since: &mut u64) -> u64 {
        quote_code(self.query(|store| store.look_up(offer, state)), price, since)
    }

    fn issue(&mut self, caller: u32, slot: usize, list: &mut [u64]) -> u64 {
        code(self.call(|store| store.issue(Caller::of_number(caller), slot, list)))
    }

    fn forward(&mut self, caller: u32, slot: usize, state: u32, reads: &mut [u64]) -> u64 {
        code(self.call(|store| store.forward(Caller::of_number(caller), slot, state, reads)))
    }

    fn release(&mut self, caller: u32, slot: usize) -> u64 {
        code(self.call(|store| store.release(Caller::of_number(caller), slot)))
    }

    fn price_batch(reads: &[u64], orders: &[u64], out: &mut [u64]) -> u64 {
        code(baseline::price_batch(reads, orders, out))
    }
}
