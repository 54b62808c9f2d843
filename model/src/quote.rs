//! What a lookup gives: an offer's price, or none, and since when.

use std::fmt;

/// Since when an offer stands as a lookup found it: the state to which the last step naming it leads, or that the table answered.
#[derive(Clone, Copy, Debug, PartialEq, Eq)]
pub enum Since {
    State(u32),
    Table,
}

impl Since {
    /// Its word without a number.
    pub fn word(&self) -> &'static str {
        match self {
            Since::State(_) => "since",
            Since::Table => "table",
        }
    }
}

impl fmt::Display for Since {
    fn fmt(&self, f: &mut fmt::Formatter<'_>) -> fmt::Result {
        f.write_str(self.word())?;
        match self {
            Since::State(state) => write!(f, " {state}"),
            Since::Table => Ok(()),
        }
    }
}

/// What is quoted for an offer at a state. A removal names its offer, so that there may be a number without a price.
#[derive(Clone, Copy, Debug, PartialEq, Eq)]
pub struct Quote {
    pub price: Option<u32>,
    pub since: Since,
}
