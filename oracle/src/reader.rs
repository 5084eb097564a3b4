//! Taking a record's words one after another: what written and flat rules share.

use crate::refusal::{Cause, Refusal};
use crate::signature::Signature;
use crate::stand_ins::ast::Literal;
use crate::stand_ins::numbers::{Head, Leaf};
use crate::words::{COUNTS, NAMES, Word};

/// Stands before the next word. Words are taken in ascending order and the first cause met is returned, so its place is
/// the lowest.
pub(crate) struct Reader<'a> {
    pub(crate) signature: &'a Signature,
    words: &'a [u32],
    at: usize,
}

impl<'a> Reader<'a> {
    /// A record has at least one word and at most `limit`.
    pub(crate) fn new(signature: &'a Signature, words: &'a [u32], limit: usize) -> Result<Reader<'a>, Refusal> {
        if words.is_empty() || words.len() > limit {
            return Err(Cause::Length.at(0));
        }
        Ok(Reader { signature, words, at: 0 })
    }

    /// Takes the next word if `fit` makes something of it, and returns it with its index.
    pub(crate) fn take<T>(&mut self, fit: impl FnOnce(Word) -> Option<T>) -> Result<(usize, T), Refusal> {
        let place = self.at;
        let fitting = self.words.get(place).and_then(|&word| fit(Word::of(word)));
        // Past the last word the place is the record's length.
        let Some(taken) = fitting else { return Err(Cause::Unfit.at(place)) };
        self.at += 1;
        Ok((place, taken))
    }

    /// Takes `count` of the same. Nothing is set aside for them beforehand: a count may be far above what is left.
    pub(crate) fn several<T>(
        &mut self,
        count: u32,
        mut one: impl FnMut(&mut Self) -> Result<T, Refusal>,
    ) -> Result<Vec<T>, Refusal> {
        (0..count).map(|_| one(self)).collect()
    }

    /// How many facts or atoms, and how many actions.
    pub(crate) fn header(&mut self) -> Result<(u32, u32), Refusal> {
        let (_, parts) = self.take(|word| match word {
            Word::Header { body, actions } if body < NAMES => Some((body, actions)),
            _ => None,
        })?;
        Ok(parts)
    }

    pub(crate) fn name(&mut self) -> Result<Leaf, Refusal> {
        Ok(self.take(fit_name)?.1)
    }

    pub(crate) fn literal(&mut self) -> Result<Literal, Refusal> {
        Ok(self.take(fit_literal)?.1)
    }

    /// A kind 3 word: its head and the count under it.
    pub(crate) fn call(&mut self) -> Result<(Head, u32), Refusal> {
        let heads = self.signature.heads();
        let (place, (number, count)) = self.take(|word| fit_call(word, heads))?;
        Ok((Head { number, place }, count))
    }

    /// Nothing may follow.
    pub(crate) fn end(&self) -> Result<(), Refusal> {
        if self.at < self.words.len() { Err(Cause::Unfit.at(self.at)) } else { Ok(()) }
    }
}

pub(crate) fn fit_name(word: Word) -> Option<Leaf> {
    match word {
        Word::Name(name) if name < NAMES => Some(Leaf::Name(name as u16)),
        _ => None,
    }
}

pub(crate) fn fit_literal(word: Word) -> Option<Literal> {
    match word {
        Word::Literal(literal) if literal < COUNTS => Some(Literal::of(literal as u16)),
        _ => None,
    }
}

pub(crate) fn fit_call(word: Word, heads: usize) -> Option<(u16, u32)> {
    match word {
        Word::Call { head, count } if (head as usize) < heads => Some((head as u16, count)),
        _ => None,
    }
}

/// A fresh variable whose head there is, or a name.
pub(crate) fn fit_leaf(word: Word, heads: usize) -> Option<Leaf> {
    match word {
        Word::Fresh { head, count } if (head as usize) < heads => Some(Leaf::Fresh { head: head as u16, count }),
        _ => fit_name(word),
    }
}
