//! Calls and answers as lines have them, with long lists cut short.

use super::line::{name_of, rule_field};
use crate::case::{Call, Case, Five};
use crate::trial::{Difference, Outcome, Stated};
use crate::words::words_of;
use std::fmt;
use tulgarent::Answer;

/// How many items of a list are shown, and how many of them before the place that it is about.
const SHOWN: usize = 12;
const BEFORE: usize = 4;

/// A list around a place: all of it if it is short.
struct Shortened<'a> {
    items: &'a [u32],
    place: usize,
    show: fn(u32) -> String,
}

impl fmt::Display for Shortened<'_> {
    fn fmt(&self, f: &mut fmt::Formatter<'_>) -> fmt::Result {
        let Shortened { items, place, show } = *self;
        let start = place.saturating_sub(BEFORE).min(items.len().saturating_sub(SHOWN));
        let end = items.len().min(start + SHOWN);
        let shown: Vec<String> = items[start..end].iter().map(|item| show(*item)).collect();
        let [left, right] =
            [(start > 0, "..,"), (end < items.len(), ",..")].map(|(cut, dots)| if cut { dots } else { "" });
        write!(f, "{left}{}{right}", shown.join(","))?;
        match (start, items.len()) {
            (_, all) if all <= SHOWN => Ok(()),
            (0, all) => write!(f, "({all} in all)"),
            (start, all) => write!(f, "({all} in all, shown from {start} on)"),
        }
    }
}

fn words(items: &[u32], place: usize) -> Shortened<'_> {
    Shortened { items, place, show: |word| format!("{word:08x}") }
}

fn numbers(items: &[u32], place: usize) -> Shortened<'_> {
    Shortened { items, place, show: |number| number.to_string() }
}

/// A call, around the place of the refusal that is asked about.
pub struct ShownCase<'a>(pub &'a Case, pub &'a Answer);

impl fmt::Display for ShownCase<'_> {
    fn fmt(&self, f: &mut fmt::Formatter<'_>) -> fmt::Result {
        let ShownCase(case, refusal) = self;
        let place = usize::try_from(refusal.place).unwrap_or(usize::MAX);
        let (in_signature, in_rule) = match refusal.number {
            1 => (place, 0),
            5..=9 | 11 | 12 => (0, place),
            _ => (0, 0),
        };
        write!(f, "{} sig={}", name_of(case.call), words(&case.signature, in_signature))?;
        write!(f, " room={}", case.output)?;
        if case.call == Call::Lower {
            write!(f, " counters={}", numbers(&case.counters, 0))?;
        }
        write!(f, " {}={}", rule_field(case.call), words(&case.rule, in_rule))?;
        if case.call != Call::FreeVars {
            write!(f, " scratch={}", case.scratch)?;
        }
        if case.ragged == Five::default() { Ok(()) } else { write!(f, " ragged by {}", case.ragged) }
    }
}

/// An answer, around what differs.
pub struct ShownAnswer<'a> {
    call: Call,
    answer: Answer,
    words: Vec<u32>,
    counters: Vec<u32>,
    difference: &'a Difference,
}

impl<'a> ShownAnswer<'a> {
    pub fn stated(call: Call, stated: &Stated, difference: &'a Difference) -> ShownAnswer<'a> {
        let Stated { answer, words, counters } = stated.clone();
        ShownAnswer { call, answer, words, counters, difference }
    }

    /// A wrong answer may count more words than are lent.
    pub fn found(call: Call, found: &Outcome, difference: &'a Difference) -> ShownAnswer<'a> {
        let Outcome { answer, output, counters } = found;
        let mut words = words_of(output);
        words.truncate(usize::try_from(answer.words).unwrap_or(usize::MAX));
        ShownAnswer { call, answer: *answer, words, counters: words_of(counters), difference }
    }
}

impl fmt::Display for ShownAnswer<'_> {
    fn fmt(&self, f: &mut fmt::Formatter<'_>) -> fmt::Result {
        let Answer { number, place, words: count, replacements, passes } = self.answer;
        if number > 0 {
            write!(f, "refused {number} {place}")?;
            let counts = [count, replacements, passes];
            return if counts == [0; 3] { Ok(()) } else { write!(f, ", with counts {counts:?}") };
        }
        let (in_words, in_counters) = match self.difference {
            Difference::Output(byte) => (byte / 4, 0),
            Difference::Counters(byte) => (0, byte / 4),
            _ => (0, 0),
        };
        write!(f, "ok {count} {replacements} {passes} out={}", words(&self.words, in_words))?;
        if self.call == Call::Lower {
            write!(f, " counters={}", numbers(&self.counters, in_counters))?;
        }
        if place == 0 { Ok(()) } else { write!(f, ", with place {place}") }
    }
}

#[cfg(test)]
mod tests {
    use super::{numbers, words};

    #[test]
    fn long_lists_are_cut_around_a_place() {
        let items: Vec<u32> = (0..40).collect();
        assert_eq!(numbers(&items[..12], 7).to_string(), "0,1,2,3,4,5,6,7,8,9,10,11");
        assert_eq!(numbers(&items, 3).to_string(), "0,1,2,3,4,5,6,7,8,9,10,11,..(40 in all)");
        let middle = "..,16,17,18,19,20,21,22,23,24,25,26,27,..(40 in all, shown from 16 on)";
        assert_eq!(numbers(&items, 20).to_string(), middle);
        let end = "..,28,29,30,31,32,33,34,35,36,37,38,39(40 in all, shown from 28 on)";
        assert_eq!(numbers(&items, 4_000).to_string(), end);
        assert_eq!(words(&[], 9).to_string(), "");
    }
}
