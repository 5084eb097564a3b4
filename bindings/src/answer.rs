//! What a call comes to.

use crate::abi::Element;
use crate::refusal::Refusal;
use crate::sizes::size;
use crate::word::Word;

/// What a function of the archive returns.
///
/// Number 0 is acceptance, then the place is 0. Any other number is a refusal, then the counts are 0.
#[repr(C)]
#[derive(Debug, Clone, Copy, PartialEq, Eq, Hash, Default)]
#[must_use = "a number other than 0 says that nothing was written"]
pub struct Answer {
    /// 0, or the number of the refusal.
    pub number: u64,
    /// Where: a word's index, unless the number says otherwise.
    pub place: u64,
    /// Words written to the output.
    pub words: u64,
    /// Variables replaced.
    pub replacements: u64,
    /// Merge passes.
    pub passes: u64,
}

/// A rule that was lowered or settled.
///
/// Shown, it is its words in the notation of [`Word`].
#[derive(Debug, Clone, Copy, PartialEq, Eq, Hash)]
#[must_use]
pub struct Lowered<'o, T = Word> {
    /// The result: the part of the output that was written, over bytes four for each word.
    pub words: &'o [T],
    /// Variables that settling replaced. The result's first actions are as many bindings.
    pub replacements: usize,
    /// Merge passes until the body was settled, the last one counted.
    pub passes: usize,
}

impl Answer {
    /// The refusal, or none if the rule was accepted.
    ///
    /// ```
    /// use tulgarent::{Answer, Refusal};
    ///
    /// let answer = Answer { number: 10, place: 17, ..Answer::default() };
    /// assert_eq!(answer.refusal(), Some(Refusal::Output { needed: 17 }));
    /// ```
    #[must_use]
    pub fn refusal(&self) -> Option<Refusal> {
        (self.number != 0).then(|| Refusal::new(self.number, size(self.place)))
    }

    /// The result with its counts, or the refusal, for a call that was lent this output.
    pub(crate) fn lowered<T: Element>(self, output: &[T]) -> Result<Lowered<'_, T>, Refusal> {
        let words = self.written(output)?;
        Ok(Lowered { words, replacements: size(self.replacements), passes: size(self.passes) })
    }

    /// The part of the output that was written, or the refusal.
    pub(crate) fn written<T: Element>(self, output: &[T]) -> Result<&[T], Refusal> {
        match self.refusal() {
            Some(refusal) => Err(refusal),
            // What was written stands in the output, so the whole of it is never fallen back on.
            None => Ok(output.get(..size(self.words).saturating_mul(T::IN_A_WORD)).unwrap_or(output)),
        }
    }
}
