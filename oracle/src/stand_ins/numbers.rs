//! Number types for head and leaf, and a generator of fresh pairs.

use super::typechecking::TypeInfo;
use crate::source::core::IsFunc;
use crate::source::util::FreshGen;
use crate::words::COUNTS;
use std::fmt;
use std::hash::{Hash, Hasher};

/// A head's number, with the index of the kind 3 word that it was read from.
///
/// The source hands a call's head, and nothing else of the call, to the generator of fresh variables. So the head is what
/// can tell the generator where it is.
#[derive(Debug, Clone, Copy)]
pub(crate) struct Head {
    pub(crate) number: u16,
    pub(crate) place: usize,
}

/// The place is a note, as spans are notes on terms: it takes no part in equality.
impl PartialEq for Head {
    fn eq(&self, other: &Self) -> bool {
        self.number == other.number
    }
}

impl Eq for Head {}

impl Hash for Head {
    fn hash<H: Hasher>(&self, state: &mut H) {
        self.number.hash(state);
    }
}

impl fmt::Display for Head {
    fn fmt(&self, f: &mut fmt::Formatter<'_>) -> fmt::Result {
        write!(f, "{}", self.number)
    }
}

impl IsFunc for Head {
    fn is_constructor(&self, type_info: &TypeInfo) -> bool {
        type_info.is_constructor(self.number)
    }
}

/// What the source spells as a string: a name, or a fresh variable as the pair that it is.
#[derive(Debug, Clone, Copy, PartialEq, Eq, Hash)]
pub(crate) enum Leaf {
    Name(u16),
    Fresh { head: u16, count: u32 },
}

/// A name is spelt in digits alone, which `TypeInfo` reads back; the dot keeps a pair from being one.
impl fmt::Display for Leaf {
    fn fmt(&self, f: &mut fmt::Formatter<'_>) -> fmt::Result {
        match self {
            Leaf::Name(name) => write!(f, "{name}"),
            Leaf::Fresh { head, count } => write!(f, "{head}.{count}"),
        }
    }
}

/// Gives the pairs (head, count) from counters of its own, so that whoever lent them decides whether they move.
///
/// A trait method that returns a leaf can't refuse. A counter at its end is noted with the place of the head that asked,
/// and a pair that no word holds goes out; the walk may go on, since its answer is dropped. The note is made when the
/// walk is there: a type error met before has ended the walk without it, and one met after comes too late to count.
pub(crate) struct PairGen {
    counters: Vec<u32>,
    exhausted: Option<usize>,
}

impl PairGen {
    pub(crate) fn new(counters: &[u32]) -> PairGen {
        PairGen { counters: counters.to_vec(), exhausted: None }
    }

    /// The counters after all that was given out, or the place where the first counter was at its end.
    pub(crate) fn finish(self) -> Result<Vec<u32>, usize> {
        match self.exhausted {
            None => Ok(self.counters),
            Some(place) => Err(place),
        }
    }
}

impl FreshGen<Head, Leaf> for PairGen {
    fn fresh(&mut self, head: &Head) -> Leaf {
        let counter = &mut self.counters[usize::from(head.number)];
        let count = *counter;
        if count >= COUNTS {
            self.exhausted.get_or_insert(head.place);
        }
        *counter = count.saturating_add(1);
        Leaf::Fresh { head: head.number, count }
    }
}
