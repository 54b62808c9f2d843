//! Whether standard input and output were open when the program started.
//!
//! Rust opens `/dev/null` in place of a standard stream that is closed, before `main`: what is printed would be lost, and
//! the program would not know. So the question is asked before that, by a function that the loader calls first.

use std::sync::atomic::{AtomicBool, Ordering};

static INPUT_OPEN: AtomicBool = AtomicBool::new(true);
static OUTPUT_OPEN: AtomicBool = AtomicBool::new(true);

const INPUT: i32 = 0;
const OUTPUT: i32 = 1;
/// Asks for a descriptor's flags, which a closed one has not.
const F_GETFD: i32 = 1;

extern "C" {
    fn fcntl(descriptor: i32, command: i32, ...) -> i32;
}

extern "C" fn note() {
    // The command only reads flags, and takes any number for a descriptor.
    let open = |descriptor| unsafe { fcntl(descriptor, F_GETFD) } != -1;
    INPUT_OPEN.store(open(INPUT), Ordering::Relaxed);
    OUTPUT_OPEN.store(open(OUTPUT), Ordering::Relaxed);
}

// The loader calls each function of this section once, before main.
#[used]
#[link_section = ".init_array"]
static NOTE: extern "C" fn() = note;

/// Whether standard input was open.
pub fn input_was_open() -> bool {
    INPUT_OPEN.load(Ordering::Relaxed)
}

/// Whether standard output was open.
pub fn output_was_open() -> bool {
    OUTPUT_OPEN.load(Ordering::Relaxed)
}
