//! No call allocates.

mod common;

use cechnuol::{price_batch, Entry, Order};
use common::{of_lengths, store, CALLS};
use std::alloc::{GlobalAlloc, Layout, System};
use std::cell::Cell;
use std::hint::black_box;

thread_local! {
    static ALLOCATIONS: Cell<usize> = const { Cell::new(0) };
}

/// The system's memory, with a count of what each thread takes of it.
struct Counting;

// SAFETY: all is done by the system's.
unsafe impl GlobalAlloc for Counting {
    unsafe fn alloc(&self, layout: Layout) -> *mut u8 {
        let _ = ALLOCATIONS.try_with(|count| count.set(count.get() + 1));
        System.alloc(layout)
    }

    unsafe fn dealloc(&self, at: *mut u8, layout: Layout) {
        System.dealloc(at, layout)
    }
}

#[global_allocator]
static COUNTING: Counting = Counting;

/// How often memory is taken while something is done.
fn allocations(done: impl FnOnce()) -> usize {
    let before = ALLOCATIONS.get();
    done();
    ALLOCATIONS.get() - before
}

#[test]
fn no_call_allocates() {
    assert_eq!(allocations(|| drop(black_box(vec![7]))), 1, "what is taken is counted");
    for (name, call) in CALLS {
        let (mut accepting, mut refusing) = (store(), of_lengths(0, 0));
        let count = allocations(|| {
            assert!(call(&mut accepting).is_ok());
            assert!(call(&mut refusing).is_err());
        });
        assert_eq!(count, 0, "{name}");
    }
    let mut out = [Entry::ask(5)];
    let count = allocations(|| {
        assert!(price_batch(&[Entry::ask(5)], &[Order::list(5, 7)], &mut out).is_ok());
        assert!(price_batch(&[], &[Order::NO_ORDER], &mut out).is_err());
    });
    assert_eq!(count, 0);
}
