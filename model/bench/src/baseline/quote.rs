//! What a lookup answers.

/// The price of an offer, or none, and how fresh that is.
#[derive(Clone, Copy, Debug, PartialEq, Eq)]
pub struct Quote {
    pub price: Option<u32>,
    pub since: Since,
}

/// The state to which the last step leads that names the offer, or that the table answered.
#[derive(Clone, Copy, Debug, PartialEq, Eq)]
pub enum Since {
    State(u32),
    Table,
}
