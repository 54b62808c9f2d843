//! A second model of the price unit, written from its papers (document 01, requests of document 02, sections 6 and 7
//! of document 000) and not from the proved unit's definitions.
//!
//! [`store`] is the unit on raw memory, [`plain`] the plain list of whole maps that it is held to, [`script`] the scripts of
//! docs/REPLAY.md, [`gen`] a generator of random scripts, and [`check`] holds the store to the plain list.

pub mod batch;
pub mod caller;
pub mod changes;
pub mod check;
pub mod crc32;
pub mod draw;
pub mod format;
pub mod gen;
pub mod ground;
pub mod head;
pub mod image;
pub mod listing;
pub mod plain;
pub mod program;
pub mod quote;
pub mod rng;
pub mod script;
pub mod sheet;
pub mod sound;
mod standard;
pub mod store;
pub mod unit;
pub mod word;
