//! Reading a signature (1).

use crate::refusal::{Cause, Refusal};
use crate::source::core::GenericAtomTerm;
use crate::stand_ins::numbers::{Head, Leaf};
use crate::stand_ins::typechecking::TypeInfo;
use crate::words::{NAMES, SIGNATURE_FRONT, Word};

const CONSTRUCTOR: u32 = 1;
const PRIMITIVE: u32 = 2;
/// Where the value-eq head stands.
const VALUE_EQ_PLACE: usize = 2;

#[derive(Debug, Clone)]
pub(crate) struct Signature {
    pub(crate) type_info: TypeInfo,
    pub(crate) union_to_set: bool,
    value_eq: u16,
}

impl Signature {
    /// Words are tested from the first one on, then a surplus, then value-eq: the first cause met has the lowest place.
    pub(crate) fn read(words: &[u32]) -> Result<Signature, Refusal> {
        let heads = number(words, 0, 1..=NAMES)?;
        let globals = number(words, 1, 0..=NAMES)?;
        let value_eq = number(words, VALUE_EQ_PLACE, 0..=heads - 1)?;
        let union_to_set = number(words, 3, 0..=1)?;
        let length = SIGNATURE_FRONT + heads as usize;
        let sorts = (SIGNATURE_FRONT..length)
            .map(|index| number(words, index, 0..=PRIMITIVE))
            .collect::<Result<Vec<_>, _>>()?;
        if words.len() > length {
            return Err(Cause::Signature.at(length));
        }
        if sorts[value_eq as usize] != PRIMITIVE {
            return Err(Cause::Signature.at(VALUE_EQ_PLACE));
        }
        let constructors = sorts.into_iter().map(|sort| sort == CONSTRUCTOR).collect();
        Ok(Signature {
            type_info: TypeInfo::new(globals as u16, constructors),
            union_to_set: union_to_set == 1,
            value_eq: value_eq as u16,
        })
    }

    pub(crate) fn heads(&self) -> usize {
        self.type_info.heads()
    }

    pub(crate) fn ask_counters(&self, counters: usize) -> Result<(), Refusal> {
        if counters < self.heads() { Err(Cause::Counters.at(0)) } else { Ok(()) }
    }

    /// What settling calls for an equality that stays. Its head comes from no word of the record.
    pub(crate) fn value_eq(&self) -> impl Fn(&GenericAtomTerm<Leaf>, &GenericAtomTerm<Leaf>) -> Head + use<> {
        let head = Head { number: self.value_eq, place: 0 };
        move |_, _| head
    }
}

/// How many of the words are the signature, if its first word says so: what a list of signature and rule is split by.
pub(crate) fn signature_length(words: &[u32]) -> Option<usize> {
    number(words, 0, 1..=NAMES).ok().map(|heads| SIGNATURE_FRONT + heads as usize)
}

/// The payload of a signature word within its range. An index past the end is the length, the place of a short one.
fn number(words: &[u32], index: usize, range: std::ops::RangeInclusive<u32>) -> Result<u32, Refusal> {
    match words.get(index).map(|&word| Word::of(word)) {
        Some(Word::Signature(number)) if range.contains(&number) => Ok(number),
        _ => Err(Cause::Signature.at(index)),
    }
}
