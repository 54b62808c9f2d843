//! The grounds for turning a call away, with the numbers of document 01 and of those that joined them.

/// A ground and its number.
#[derive(Clone, Copy, Debug, PartialEq, Eq, PartialOrd, Ord)]
pub enum Ground {
    /// The table's or the journal's length is outside its range.
    Length = 1,
    /// The store is not sound.
    Unsound = 2,
    /// The slot is above 7.
    Slot = 3,
    /// The slot named for an issue is open.
    SlotOpen = 4,
    /// The slot named for a forward or a release is closed.
    SlotClosed = 5,
    /// A list breaks its rules, or what document 01 counts with it.
    List = 6,
    /// Some order's kind is unknown, or a withdrawal has an amount.
    Order = 7,
    /// Some order's offer is not in the read set.
    NotRead = 8,
    /// The first order that fails needs a price where there is none.
    NoPrice = 9,
    /// The first order that fails takes a price out of its range.
    PriceRange = 10,
    /// The state named is below the checkpoint or above the tip.
    State = 11,
    /// The tip is the largest number at a commit.
    LastState = 12,
    /// 64 steps are held at a commit.
    Steps = 13,
    /// The commit's words exceed the unused journal.
    JournalFull = 14,
    /// An image's length, order of offers or kind bits are wrong, or a sheet is broken.
    Image = 15,
    /// The map to be flushed or loaded has more offers than the table has words.
    TableFull = 16,
    /// Output is shorter than what is to be written.
    Output = 17,
    /// A list that the foyer issues or forwards has over 16 words.
    LongList = 18,
    /// The slot is not the caller's.
    OthersSlot = 19,
    /// A depth is above 63, or a flush goes higher than the tip less the depth.
    TooDeep = 20,
}

impl Ground {
    /// The number.
    pub fn number(self) -> u8 {
        self as u8
    }
}

/// Turns a call away unless the test holds.
pub fn unless(test: bool, ground: Ground) -> Result<(), Ground> {
    if test {
        Ok(())
    } else {
        Err(ground)
    }
}
