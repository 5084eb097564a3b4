//! Why a call turned its input back.

use crate::sizes::{FLAT_WORDS, SCRATCH_WORDS, WORD_BYTES, WRITTEN_WORDS};
use core::error::Error;
use core::fmt;

/// An expression stands inside fewer calls than this.
const MOST_CALLS: usize = 32;
/// Where a signature names its value-eq head.
const VALUE_EQ: usize = 2;

/// A refusal: a variant for each number, which carries what that number tells.
///
/// Places are indexes of words, from 0, also where bytes were lent. Number 13 is missing: it is about lines, which only the
/// program reads.
///
/// ```
/// use tulgarent::Refusal;
///
/// let refusal = Refusal::Output { needed: 17 };
/// assert_eq!((refusal.number(), refusal.place()), (10, 17));
/// assert_eq!(refusal.to_string(), "the result needs an output of 17 words (refused 10 17)");
/// ```
#[derive(Debug, Clone, Copy, PartialEq, Eq, Hash)]
#[non_exhaustive]
pub enum Refusal {
    /// 1: a word of the signature that does not fit, a signature that is too short or too long, or a value-eq head that
    /// is not primitive.
    Signature {
        /// The first bad or surplus word of the signature; its length if it is short; 2 if value-eq is not primitive.
        place: usize,
    },
    /// 2: fewer counters than the signature has heads.
    Counters,
    /// 3: less scratch than [`SCRATCH_WORDS`](crate::SCRATCH_WORDS).
    Scratch,
    /// 4: a rule of no words, or of more than [`WRITTEN_WORDS`](crate::WRITTEN_WORDS) for a written rule and
    /// [`FLAT_WORDS`](crate::FLAT_WORDS) for a flat one.
    Length,
    /// 5: a word of the rule whose kind or payload does not fit where it stands, or a rule that ends early or goes on.
    Unfit {
        /// The word; the first surplus one if the rule goes on; the rule's length if it ends early.
        place: usize,
    },
    /// 6: an expression inside 32 calls.
    TooDeep {
        /// The word with which it begins.
        place: usize,
    },
    /// 7: an action reads a name that neither a fact nor an earlier let binds, and that is no global.
    Unbound {
        /// The name.
        place: usize,
    },
    /// 8: a let of a name that is bound already.
    AlreadyDefined {
        /// The let's action word.
        place: usize,
    },
    /// 9: a head's counter is at 65,536 or more, so there is no fresh variable left for it.
    CounterAtEnd {
        /// The kind 3 word of the call that asked for one.
        place: usize,
    },
    /// 10: the result is longer than the output.
    Output {
        /// How many words it has.
        needed: usize,
    },
    /// 11: an atom of a flat rule has no terms, so it has no output.
    NoTerms {
        /// The atom's word.
        place: usize,
    },
    /// 12: an equality of a flat rule has other than two terms.
    EqualityCount {
        /// The equality's word.
        place: usize,
    },
    /// 14: a byte slice is not whole words.
    Ragged,
    /// A number that this crate does not know, or a place that it does not know for this number: the archive is newer.
    Other {
        /// The number.
        number: u64,
        /// What the number says it is.
        place: usize,
    },
}

impl Refusal {
    /// Four numbers always come with place 0, so their variants carry none.
    pub(crate) fn new(number: u64, place: usize) -> Refusal {
        match (number, place) {
            (1, place) => Refusal::Signature { place },
            (2, 0) => Refusal::Counters,
            (3, 0) => Refusal::Scratch,
            (4, 0) => Refusal::Length,
            (5, place) => Refusal::Unfit { place },
            (6, place) => Refusal::TooDeep { place },
            (7, place) => Refusal::Unbound { place },
            (8, place) => Refusal::AlreadyDefined { place },
            (9, place) => Refusal::CounterAtEnd { place },
            (10, needed) => Refusal::Output { needed },
            (11, place) => Refusal::NoTerms { place },
            (12, place) => Refusal::EqualityCount { place },
            (14, 0) => Refusal::Ragged,
            (number, place) => Refusal::Other { number, place },
        }
    }

    /// The number, as the archive and the program give it.
    #[must_use]
    pub const fn number(&self) -> u64 {
        match *self {
            Refusal::Signature { .. } => 1,
            Refusal::Counters => 2,
            Refusal::Scratch => 3,
            Refusal::Length => 4,
            Refusal::Unfit { .. } => 5,
            Refusal::TooDeep { .. } => 6,
            Refusal::Unbound { .. } => 7,
            Refusal::AlreadyDefined { .. } => 8,
            Refusal::CounterAtEnd { .. } => 9,
            Refusal::Output { .. } => 10,
            Refusal::NoTerms { .. } => 11,
            Refusal::EqualityCount { .. } => 12,
            Refusal::Ragged => 14,
            Refusal::Other { number, .. } => number,
        }
    }

    /// The place, as the archive and the program give it: the words needed for number 10, and 0 for numbers that tell of
    /// no place.
    #[must_use]
    pub const fn place(&self) -> usize {
        match *self {
            Refusal::Counters | Refusal::Scratch | Refusal::Length | Refusal::Ragged => 0,
            Refusal::Output { needed } => needed,
            Refusal::Signature { place }
            | Refusal::Unfit { place }
            | Refusal::TooDeep { place }
            | Refusal::Unbound { place }
            | Refusal::AlreadyDefined { place }
            | Refusal::CounterAtEnd { place }
            | Refusal::NoTerms { place }
            | Refusal::EqualityCount { place }
            | Refusal::Other { place, .. } => place,
        }
    }

    /// The sentence for the rule's writer.
    fn sentence(&self, f: &mut fmt::Formatter<'_>) -> fmt::Result {
        match *self {
            // A signature of two words has no word 2, so this place alone has three causes.
            Refusal::Signature { place: VALUE_EQ } => {
                write!(f, "word 2 of the signature is missing, or is not the number of a head that is primitive")
            }
            Refusal::Signature { place } => write!(f, "word {place} of the signature is wrong, missing or surplus"),
            Refusal::Counters => write!(f, "there are fewer counters than the signature has heads"),
            Refusal::Scratch => write!(f, "less than {SCRATCH_WORDS} words of scratch were lent"),
            Refusal::Length => {
                write!(f, "the rule is empty, or longer than {WRITTEN_WORDS} words if written, {FLAT_WORDS} if flat")
            }
            Refusal::Unfit { place } => write!(f, "word {place} of the rule is wrong there, missing or surplus"),
            Refusal::TooDeep { place } => write!(f, "word {place} of the rule stands inside {MOST_CALLS} calls"),
            Refusal::Unbound { place } => {
                write!(f, "the name at word {place} of the rule is bound by no fact and by no let before it")
            }
            Refusal::AlreadyDefined { place } => {
                write!(f, "the let at word {place} of the rule is of a name that is bound already")
            }
            Refusal::CounterAtEnd { place } => {
                write!(f, "no fresh variable is left for the head at word {place} of the rule")
            }
            Refusal::Output { needed } => write!(f, "the result needs an output of {needed} words"),
            Refusal::NoTerms { place } => write!(f, "the atom at word {place} of the rule has no terms"),
            Refusal::EqualityCount { place } => {
                write!(f, "the equality at word {place} of the rule has other than two terms")
            }
            Refusal::Ragged => write!(f, "a byte slice is not whole words of {WORD_BYTES} bytes"),
            Refusal::Other { .. } => write!(f, "the archive refuses for a reason that this crate does not know"),
        }
    }
}

/// A sentence for the rule's writer, then number and place as the program prints them.
impl fmt::Display for Refusal {
    fn fmt(&self, f: &mut fmt::Formatter<'_>) -> fmt::Result {
        self.sentence(f)?;
        write!(f, " (refused {} {})", self.number(), self.place())
    }
}

impl Error for Refusal {}
