//! The baseline: the work of the unit in safe Rust as one writes it for speed and clarity, on the same lent memory and with the
//! same tests. Every call on a store tests the whole of it, and a refused call leaves everything as it came.

mod batch;
mod caller;
mod changes;
mod head;
mod image;
mod lent_words;
mod quote;
mod reads;
mod refusal;
mod rest;
mod sheet;
mod sound;
mod steps;
mod store;
mod without_exits;
pub mod word;

pub use batch::price_batch;
pub use caller::Caller;
pub use head::{Head, Tally, DEPTH};
pub use lent_words::LentWords;
pub use quote::{Quote, Since};
pub use refusal::Refusal;
pub use store::{Memory, Store};
