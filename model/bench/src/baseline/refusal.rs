//! The grounds on which a call is turned away, with their numbers.

/// A ground.
#[derive(Clone, Copy, Debug, PartialEq, Eq)]
#[repr(u8)]
pub enum Refusal {
    Lengths = 1,
    Unsound,
    SlotRange,
    SlotTaken,
    SlotClosed,
    BadList,
    BadOrder,
    OfferNotRead,
    NoPrice,
    PriceRange,
    StateRange,
    LastState,
    StepsFull,
    JournalFull,
    BadImage,
    TableFull,
    OutputShort,
    LongList,
    OthersSlot,
    TooDeep,
}

impl Refusal {
    /// The number of the ground.
    pub fn number(self) -> u64 {
        self as u64
    }

    /// The ground, unless the test holds.
    pub fn unless(self, test: bool) -> Result<(), Refusal> {
        if test {
            Ok(())
        } else {
            Err(self)
        }
    }
}
