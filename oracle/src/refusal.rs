//! The numbers of document 01's table, and a refusal as number and place.

/// Why a call turns its input back.
#[derive(Debug, Clone, Copy, PartialEq, Eq)]
pub enum Cause {
    /// A signature word, its length, or a value-eq head that is no primitive.
    Signature = 1,
    /// Counters fewer than heads.
    Counters = 2,
    Scratch = 3,
    /// A rule's length beyond its limits.
    Length = 4,
    /// A word of a kind or payload that does not fit; a record short or long.
    Unfit = 5,
    /// An expression word inside 32 calls.
    Depth = 6,
    Unbound = 7,
    AlreadyDefined = 8,
    /// A counter at 65,536 or more when used.
    Exhausted = 9,
    /// A result longer than the output.
    Output = 10,
    /// A flat kind 3 atom with no terms.
    NoTerms = 11,
    /// A flat equality with a count other than 2.
    EqualityCount = 12,
    /// A line of the program's input.
    Line = 13,
    /// A byte slice that is not whole words.
    Ragged = 14,
}

impl Cause {
    pub fn at(self, place: usize) -> Refusal {
        Refusal { number: self as u64, place: place as u64 }
    }
}

#[derive(Debug, Clone, Copy, PartialEq, Eq)]
pub struct Refusal {
    pub number: u64,
    pub place: u64,
}
