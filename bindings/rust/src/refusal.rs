//! Why a call was refused.
// Written by bindings/generate from crates/exports and bindings/words.
use crate::fault::Fault;

/// The first test that failed, under the number that the library answers. Two are equal where their numbers are.
#[derive(Clone, Copy, Debug, Eq)]
#[non_exhaustive]
pub enum Refusal {
    /// A length, a vector's size or an index is not the one called for. Nothing was written.
    Shape(Fault),
    /// A setting is 0 where it divides, or 2^48 or more. Nothing was written.
    Settings,
    /// A slot, epoch, bit field or flag of the record is out of range. Nothing was written.
    Record,
    /// A block root is wanted that the record does not keep. Closing buffers hold the opening's numbers.
    Root,
    /// A sum, product or difference that is evaluated leaves 64 bits. Closing buffers hold the opening's numbers.
    Overflow,
    /// A record file's header is not as it must be. Nothing was written.
    File,
    /// A net change, closing minus opening balance, does not fit signed 64 bits. There was nothing to write: the close
    /// was accepted.
    SignedOverflow,
    /// The exit queue's pair is not that of the registry. Nothing was written.
    Queue,
    /// An exit order's validator is unknown, not active or leaving already. Nothing changed.
    NoExit,
    /// An exit order's start is ahead, or its validator has not been active for long enough. Nothing changed.
    TooEarly,
    /// The list of exit orders is full. Nothing was written.
    FullList,
    /// A new entry's start is not above that of the last entry. Nothing was written.
    LateStart,
    /// The store has no entry for the epoch. Nothing was written.
    NoEntry,
    /// A second is before genesis. There was nothing to write.
    BeforeGenesis,
    /// Seconds_per_slot is 0. There was nothing to write.
    NoSeconds,
}

impl Refusal {
    pub const ALL: [Refusal; 15] = [
        Refusal::Shape(Fault::UNKNOWN),
        Refusal::Settings,
        Refusal::Record,
        Refusal::Root,
        Refusal::Overflow,
        Refusal::File,
        Refusal::SignedOverflow,
        Refusal::Queue,
        Refusal::NoExit,
        Refusal::TooEarly,
        Refusal::FullList,
        Refusal::LateStart,
        Refusal::NoEntry,
        Refusal::BeforeGenesis,
        Refusal::NoSeconds,
    ];

    /// The refusal with 1 whose argument is not known: equal to each of that number.
    pub const SHAPE: Refusal = Refusal::Shape(Fault::UNKNOWN);

    /// ```
    /// assert_eq!(altair_close::Refusal::Overflow.number(), 5);
    /// ```
    pub fn number(self) -> u64 {
        match self {
            Refusal::Shape(_) => 1,
            Refusal::Settings => 2,
            Refusal::Record => 3,
            Refusal::Root => 4,
            Refusal::Overflow => 5,
            Refusal::File => 6,
            Refusal::SignedOverflow => 7,
            Refusal::Queue => 8,
            Refusal::NoExit => 9,
            Refusal::TooEarly => 10,
            Refusal::FullList => 11,
            Refusal::LateStart => 12,
            Refusal::NoEntry => 13,
            Refusal::BeforeGenesis => 14,
            Refusal::NoSeconds => 15,
        }
    }

    pub(crate) fn words(self) -> &'static str {
        match self {
            Refusal::Shape(_) => "a length, a vector's size or an index is not the one called for",
            Refusal::Settings => "a setting is 0 where it divides, or 2^48 or more",
            Refusal::Record => "a slot, epoch, bit field or flag of the record is out of range",
            Refusal::Root => "a block root is wanted that the record does not keep",
            Refusal::Overflow => "a sum, product or difference that is evaluated leaves 64 bits",
            Refusal::File => "a record file's header is not as it must be",
            Refusal::SignedOverflow => "a net change, closing minus opening balance, does not fit signed 64 bits",
            Refusal::Queue => "the exit queue's pair is not that of the registry",
            Refusal::NoExit => "an exit order's validator is unknown, not active or leaving already",
            Refusal::TooEarly => "an exit order's start is ahead, or its validator has not been active for long enough",
            Refusal::FullList => "the list of exit orders is full",
            Refusal::LateStart => "a new entry's start is not above that of the last entry",
            Refusal::NoEntry => "the store has no entry for the epoch",
            Refusal::BeforeGenesis => "a second is before genesis",
            Refusal::NoSeconds => "seconds_per_slot is 0",
        }
    }
}
