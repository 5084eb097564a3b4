//! A signature by its parts.

use crate::word::Word;

/// What a head is.
#[derive(Debug, Clone, Copy, PartialEq, Eq, Hash)]
pub enum Sort {
    /// A function.
    Function = 0,
    /// A constructor: a union with a call of it may become a set.
    Constructor = 1,
    /// A primitive, as the value-eq head must be.
    Primitive = 2,
}

/// A signature by its parts; [`SignatureParts::words`] gives the record.
///
/// Whether the parts fit each other is for the archive to say: [`Lowerer::new`](crate::Lowerer::new) and every call test
/// the record.
///
/// ```
/// use tulgarent::{SignatureParts, Sort, Word};
///
/// let parts = SignatureParts {
///     globals: 1,
///     value_eq: 0,
///     union_to_set: true,
///     sorts: &[Sort::Primitive, Sort::Function, Sort::Constructor, Sort::Function],
/// };
/// let signature: Vec<Word> = parts.words().collect();
/// assert_eq!(signature[0].to_string(), "s4");
/// assert_eq!(signature.len(), 8);
/// ```
#[derive(Debug, Clone, Copy, PartialEq, Eq, Hash)]
pub struct SignatureParts<'a> {
    /// Names below this are globals; at most 4,096.
    pub globals: u16,
    /// The head that equalities of unequal terms become. It must be a primitive.
    pub value_eq: u16,
    /// Whether the union of a name and a call of a constructor becomes a set.
    pub union_to_set: bool,
    /// What each head is, from head 0 on: 1 to 4,096 of them.
    pub sorts: &'a [Sort],
}

impl<'a> SignatureParts<'a> {
    /// The words of the signature.
    pub fn words(&self) -> impl Iterator<Item = Word> + use<'a> {
        let heads = u32::try_from(self.sorts.len()).unwrap_or(u32::MAX);
        let parts = [heads, self.globals.into(), self.value_eq.into(), self.union_to_set.into()];
        parts.into_iter().chain(self.sorts.iter().map(|&sort| sort as u32)).map(word)
    }
}

/// A count of heads too large for a word stands as the largest that a word can say, which is as surely refused.
fn word(number: u32) -> Word {
    const LARGEST: Word = Word::from_bits(0x01ff_ffff);
    Word::signature(number).unwrap_or(LARGEST)
}
