//! The unit's static library measured against the same work in safe Rust and other things; see docs/BENCHMARKS.md.

pub mod baseline;
pub mod calls;
pub mod fixed;
pub mod lent_words;
pub mod library;
pub mod lmdb;
pub mod peer;
pub mod plot;
pub mod report;
pub mod results;
pub mod scene;
pub mod sqlite;
pub mod subject;
pub mod timing;
