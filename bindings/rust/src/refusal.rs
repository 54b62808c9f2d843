//! Why a call is refused.

use std::error::Error;
use std::fmt;

macro_rules! refusals {
    ($($variant:ident = $number:literal $name:literal $text:literal $(, $more:literal)*;)*) => {
        /// Why a call is refused. Everything that the call was lent is then as it came.
        ///
        /// Each method lists the refusals that it can meet in the order in which they are tested, and the first that is met
        /// is the answer.
        #[derive(Clone, Copy, Debug, PartialEq, Eq, Hash)]
        #[non_exhaustive]
        pub enum Refusal {
            $(
                #[doc = concat!("`", $name, "`, ", $number, ": ", $text, ".")]
                $(#[doc = ""] #[doc = $more])*
                $variant,
            )*
            /// A code that this version of the crate does not know, with its number: that of a library of another version,
            /// which belongs to another version of the crate, or [`NO_PRICE`](crate::raw::NO_PRICE), which is no refusal.
            Unknown(u64),
        }

        impl Refusal {
            /// All that this version of the crate knows, by rising numbers.
            pub const ALL: [Refusal; [$($number),*].len()] = [$(Refusal::$variant),*];

            /// The number, which is the code that the library answers.
            pub const fn number(self) -> u64 {
                match self {
                    $(Refusal::$variant => $number,)*
                    Refusal::Unknown(number) => number,
                }
            }

            /// The name that the C header has for it, without prefix: `"STEPS_FULL"`.
            pub const fn name(self) -> &'static str {
                match self {
                    $(Refusal::$variant => $name,)*
                    Refusal::Unknown(_) => "UNKNOWN",
                }
            }

            /// The refusal of a number. One that is unknown is kept as it is.
            pub const fn of_number(number: u64) -> Refusal {
                match number {
                    $($number => Refusal::$variant,)*
                    number => Refusal::Unknown(number),
                }
            }

            /// The sentence that the C header has for it, without the full stop.
            const fn text(self) -> &'static str {
                match self {
                    $(Refusal::$variant => $text,)*
                    Refusal::Unknown(_) => "the number is no answer",
                }
            }
        }
    };
}

refusals! {
    Lengths = 1 "LENGTHS" "the length of the table or of the journal is outside its range",
        "A table has 1 to 8,000 words, a journal 1 to 4,096.";
    Unsound = 2 "UNSOUND" "the store is not sound",
        "Table, journal and head are not what a call left. Clear the store, or load an image into it.";
    SlotRange = 3 "SLOT_RANGE" "the slot is above 7";
    SlotTaken = 4 "SLOT_TAKEN" "the slot named for an issue is open",
        "Forward or release it, or name another of the caller's.";
    SlotClosed = 5 "SLOT_CLOSED" "the slot named for a forward or release is closed",
        "It was forwarded or released before, or a restart, a load or a clear closed it.";
    BadList = 6 "BAD_LIST" "a list breaks its rules, or there are over 64 orders, or an offer is 2^31 or more",
        "A list has 0 to 64 entries with strictly rising offers; that of an issue has only entries that ask.";
    BadOrder = 7 "BAD_ORDER" "the kind of an order is unknown, or a withdrawal has an amount",
        "[`Order::NO_ORDER`](crate::Order::NO_ORDER), which a builder gives for arguments out of range, is of unknown kind.";
    OfferNotRead = 8 "OFFER_NOT_READ" "the offer of an order is not in the read set",
        "Issue a read of every offer that the orders name.";
    OrderNoPrice = 9 "ORDER_NO_PRICE" "a raise, cut or sixteenths order is on an offer without a price";
    PriceRange = 10 "PRICE_RANGE" "an order takes a price below 0 or above 2^32 - 1";
    StateRange = 11 "STATE_RANGE" "the state is below the checkpoint or above the tip",
        "States below the checkpoint are gone: the way back is an earlier image.";
    LastState = 12 "LAST_STATE" "the tip is the last state number, 2^32 - 1",
        "Write the image of the tip, put a lower state number into its first four bytes, and load it. States below the tip, \
         open reads and the tally are gone then.";
    StepsFull = 13 "STEPS_FULL" "64 steps are held",
        "That is, tip - oldest is 64. Flush, as high as the depth lets it \
         ([`Head::highest_flush`](crate::Head::highest_flush)); if it is still full and the oldest state is below the \
         checkpoint, a slot that was opened there holds the steps: forward or release it \
         ([`Head::oldest_slot`](crate::Head::oldest_slot)). To flush again and again does not help while that slot is open. \
         A depth alone never keeps the steps full. [`Store::commit`](crate::Store::commit) has an example.";
    JournalFull = 14 "JOURNAL_FULL" "the list has more words than the journal has unused",
        "A list that is longer than the journal never fits: test that first, and commit it in parts. Flush; if it is still \
         full, forward or release the slot that was opened at the oldest state, as for [`Refusal::StepsFull`]. The steps \
         that the depth keeps may fill the journal, and then neither helps: \
         [`Store::commit`](crate::Store::commit) says what does.";
    BadImage = 15 "BAD_IMAGE" "the length, the order or a bit of the image or sheet is wrong",
        "An image or a sheet may be loaded by its own call alone: [`Store::load`](crate::Store::load), or \
         [`Store::load_sheet`](crate::Store::load_sheet).";
    TableFull = 16 "TABLE_FULL" "the state has more prices than the table has words",
        "At a flush: flush to another state whose map fits, or commit removals first and flush to the state after them, with \
         a depth once so many steps lie above it; or write the image of the state, which needs no room in the table, and \
         load it into a longer one. At a load: load into a longer table.";
    OutputShort = 17 "OUTPUT_SHORT" "the output is shorter than what is to be written",
        "[`Store::image_bytes`](crate::Store::image_bytes) are enough for any image of a store and for its restart, \
         [`IMAGE_BYTES`](crate::IMAGE_BYTES) for those of every store, [`Store::sheet_bytes`](crate::Store::sheet_bytes) and \
         [`SHEET_BYTES`](crate::SHEET_BYTES) for sheets, and as many entries as there are orders for a batch.";
    LongList = 18 "LONG_LIST" "the foyer's list has over 16 words",
        "A list that the foyer issues, or a read set that it forwards. Ask for the offers in several reads, one after another.";
    OthersSlot = 19 "OTHERS_SLOT" "the slot is not the caller's",
        "The desk has slots 0 to 5, the foyer 6 and 7 ([`Caller::slots`](crate::Caller::slots)).";
    TooDeep = 20 "TOO_DEEP" "the depth is above 63, or the flush goes higher than tip - depth",
        "At a clear or a load: a depth is at most [`MOST_DEPTH`](crate::MOST_DEPTH). At a flush: fewer steps than the depth \
         lie above the state. Flush to [`Head::highest_flush`](crate::Head::highest_flush), if that is above the checkpoint, \
         or commit further steps first. A flush to the checkpoint is never refused so.";
}

impl Refusal {
    /// What a code says of a call that gives no value: accepted, or why not. Of a lookup's codes test
    /// [`NO_PRICE`](crate::raw::NO_PRICE) before: it is neither.
    ///
    /// ```
    /// use cechnuol::Refusal;
    ///
    /// assert_eq!(Refusal::check(0), Ok(()));
    /// assert_eq!(Refusal::check(13), Err(Refusal::StepsFull));
    /// assert_eq!(Refusal::check(1000), Err(Refusal::Unknown(1000)));
    /// ```
    #[inline]
    pub const fn check(code: u64) -> Result<(), Refusal> {
        match code {
            crate::raw::OK => Ok(()),
            number => Err(Refusal::of_number(number)),
        }
    }
}

/// A sentence, without the full stop; where it is unknown, its number too.
impl fmt::Display for Refusal {
    fn fmt(&self, f: &mut fmt::Formatter<'_>) -> fmt::Result {
        match self {
            Refusal::Unknown(number) => write!(f, "{}: {number}", self.text()),
            known => f.pad(known.text()),
        }
    }
}

impl Error for Refusal {}
