//! What is measured: a store of the unit, or of the baseline, with the calls by the same names and codes.

use crate::baseline::{self, Caller, Memory, Quote, Refusal, Since};
use crate::scene::{Scene, Variant};
use cechnuol::raw::{self, BY_TABLE, NO_PRICE};
use cechnuol::TALLY_WORDS;
use ffi::Lent;

/// A store whose calls answer the codes of the C interface, and have its numbers for who calls.
pub trait Subject: 'static {
    /// The first store of a scene.
    fn of(scene: &Scene) -> Self;
    fn table(&mut self) -> &mut [u64];
    fn journal(&mut self) -> &mut [u64];
    fn set_head(&mut self, variant: &Variant);

    fn clear(&mut self, depth: u32) -> u64;
    fn load(&mut self, depth: u32, bytes: &[u8]) -> u64;
    fn load_sheet(&mut self, depth: u32, bytes: &[u8]) -> u64;
    fn write_image(&mut self, bytes: &mut [u8]) -> u64;
    fn write_state_image(&mut self, state: u32, bytes: &mut [u8]) -> u64;
    fn write_sheet(&mut self, bytes: &mut [u8]) -> u64;
    fn write_state_sheet(&mut self, state: u32, bytes: &mut [u8]) -> u64;
    fn restart(&mut self, bytes: &mut [u8]) -> u64;
    fn commit(&mut self, list: &[u64]) -> u64;
    fn roll_back(&mut self, state: u32) -> u64;
    fn flush(&mut self, state: u32) -> u64;
    fn look_up(&mut self, caller: u32, offer: u32, state: u32, price: &mut u64, since: &mut u64) -> u64;
    fn issue(&mut self, caller: u32, slot: usize, list: &mut [u64]) -> u64;
    fn forward(&mut self, caller: u32, slot: usize, state: u32, reads: &mut [u64]) -> u64;
    fn release(&mut self, caller: u32, slot: usize) -> u64;
    fn price_batch(reads: &[u64], orders: &[u64], out: &mut [u64]) -> u64;
}

impl Subject for Lent {
    fn of(scene: &Scene) -> Lent {
        let Variant { journal, words, .. } = scene.variant(0);
        Lent { table: scene.table.clone(), journal: journal.clone(), head: *words, tally: [0; TALLY_WORDS] }
    }

    fn table(&mut self) -> &mut [u64] {
        &mut self.table
    }

    fn journal(&mut self) -> &mut [u64] {
        &mut self.journal
    }

    fn set_head(&mut self, variant: &Variant) {
        self.head = variant.words;
    }

    fn clear(&mut self, depth: u32) -> u64 {
        self.lend().clear(depth)
    }

    fn load(&mut self, depth: u32, bytes: &[u8]) -> u64 {
        self.lend().load(depth, bytes)
    }

    fn load_sheet(&mut self, depth: u32, bytes: &[u8]) -> u64 {
        self.lend().load_sheet(depth, bytes)
    }

    fn write_image(&mut self, bytes: &mut [u8]) -> u64 {
        self.to_read().write_image(bytes, &mut 0)
    }

    fn write_state_image(&mut self, state: u32, bytes: &mut [u8]) -> u64 {
        self.to_read().write_state_image(state, bytes, &mut 0)
    }

    fn write_sheet(&mut self, bytes: &mut [u8]) -> u64 {
        self.to_read().write_sheet(bytes, &mut 0)
    }

    fn write_state_sheet(&mut self, state: u32, bytes: &mut [u8]) -> u64 {
        self.to_read().write_state_sheet(state, bytes, &mut 0)
    }

    fn restart(&mut self, bytes: &mut [u8]) -> u64 {
        self.lend().restart(bytes)
    }

    fn commit(&mut self, list: &[u64]) -> u64 {
        self.lend().commit(list)
    }

    fn roll_back(&mut self, state: u32) -> u64 {
        self.lend().roll_back(state)
    }

    fn flush(&mut self, state: u32) -> u64 {
        self.lend().flush(state)
    }

    fn look_up(&mut self, caller: u32, offer: u32, state: u32, price: &mut u64, since: &mut u64) -> u64 {
        self.to_read().look_up(caller, offer, state, price, since)
    }

    fn issue(&mut self, caller: u32, slot: usize, list: &mut [u64]) -> u64 {
        self.lend().issue(caller, slot, list)
    }

    fn forward(&mut self, caller: u32, slot: usize, state: u32, reads: &mut [u64]) -> u64 {
        self.lend().forward(caller, slot, state, reads)
    }

    fn release(&mut self, caller: u32, slot: usize) -> u64 {
        self.lend().release(caller, slot)
    }

    fn price_batch(reads: &[u64], orders: &[u64], out: &mut [u64]) -> u64 {
        raw::price_batch(reads, orders, out, &mut 0)
    }
}

/// The code of an answer.
pub fn code<T>(answer: Result<T, Refusal>) -> u64 {
    answer.map_or_else(Refusal::number, |_| 0)
}

/// The code of a lookup's answer; the words for the price and for how fresh it is get what the C interface gives there.
pub fn quote_code(answer: Result<Quote, Refusal>, price: &mut u64, since: &mut u64) -> u64 {
    let quote = match answer {
        Ok(quote) => quote,
        Err(refusal) => return refusal.number(),
    };
    *since = match quote.since {
        Since::State(state) => state.into(),
        Since::Table => BY_TABLE,
    };
    let Some(found) = quote.price else { return NO_PRICE };
    *price = found.into();
    0
}

impl Subject for Memory {
    fn of(scene: &Scene) -> Memory {
        let Variant { journal, head, .. } = scene.variant(0);
        let (table, journal) = (scene.table.clone(), journal.clone());
        Memory { table, journal, head: head.clone(), tally: Default::default() }
    }

    fn table(&mut self) -> &mut [u64] {
        &mut self.table
    }

    fn journal(&mut self) -> &mut [u64] {
        &mut self.journal
    }

    fn set_head(&mut self, variant: &Variant) {
        self.head.clone_from(&variant.head);
    }

    fn clear(&mut self, depth: u32) -> u64 {
        code(self.lend().clear(depth))
    }

    fn load(&mut self, depth: u32, bytes: &[u8]) -> u64 {
        code(self.lend().load(depth, bytes))
    }

    fn load_sheet(&mut self, depth: u32, bytes: &[u8]) -> u64 {
        code(self.lend().load_sheet(depth, bytes))
    }

    fn write_image(&mut self, bytes: &mut [u8]) -> u64 {
        code(self.lend().write_image(bytes))
    }

    fn write_state_image(&mut self, state: u32, bytes: &mut [u8]) -> u64 {
        code(self.lend().write_state_image(state, bytes))
    }

    fn write_sheet(&mut self, bytes: &mut [u8]) -> u64 {
        code(self.lend().write_sheet(bytes))
    }

    fn write_state_sheet(&mut self, state: u32, bytes: &mut [u8]) -> u64 {
        code(self.lend().write_state_sheet(state, bytes))
    }

    fn restart(&mut self, bytes: &mut [u8]) -> u64 {
        code(self.lend().restart(bytes))
    }

    fn commit(&mut self, list: &[u64]) -> u64 {
        code(self.lend().commit(list))
    }

    fn roll_back(&mut self, state: u32) -> u64 {
        code(self.lend().roll_back(state))
    }

    fn flush(&mut self, state: u32) -> u64 {
        code(self.lend().flush(state))
    }

    fn look_up(&mut self, _caller: u32, offer: u32, state: u32, price: &mut u64, since: &mut u64) -> u64 {
        quote_code(self.lend().look_up(offer, state), price, since)
    }

    fn issue(&mut self, caller: u32, slot: usize, list: &mut [u64]) -> u64 {
        code(self.lend().issue(Caller::of_number(caller), slot, list))
    }

    fn forward(&mut self, caller: u32, slot: usize, state: u32, reads: &mut [u64]) -> u64 {
        code(self.lend().forward(Caller::of_number(caller), slot, state, reads))
    }

    fn release(&mut self, caller: u32, slot: usize) -> u64 {
        code(self.lend().release(Caller::of_number(caller), slot))
    }

    fn price_batch(reads: &[u64], orders: &[u64], out: &mut [u64]) -> u64 {
        code(baseline::price_batch(reads, orders, out))
    }
}
