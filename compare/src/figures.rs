//! What cases came to, in figures: of each kind of case, and of each call.

use crate::case::{Call, Case};
use crate::words::{CALL, DELETE, EXPRESSION, LET, PANIC, SET, SUBSUME, UNION};
use std::fmt;
use std::time::Duration;
use tulgarent::Answer;

/// Numbers of refusals that are counted apart: 1 to 14, and any other as 0.
pub const NUMBERS: usize = 15;
/// The kind of a word with which an action begins.
const ACTION_KIND: u32 = 6;
/// Codes of actions, and 0, which none has.
const CODES: usize = EXPRESSION as usize + 1;

/// What the largest value is kept of.
#[derive(Debug, Clone, Copy, PartialEq, Eq)]
pub enum Figure {
    /// Words of a rule that is accepted.
    Rule,
    /// Words of a result; of free variables this is the row.
    Result,
    Replacements,
    Passes,
    /// Actions of this code in one rule that is accepted.
    Actions(u32),
    /// The place that comes with this refusal.
    Place(usize),
}

/// How many figures there are.
const FIGURES: usize = 4 + CODES + NUMBERS;

impl Figure {
    fn index(self) -> usize {
        match self {
            Figure::Rule => 0,
            Figure::Result => 1,
            Figure::Replacements => 2,
            Figure::Passes => 3,
            Figure::Actions(code) => 4 + code as usize,
            Figure::Place(number) => 4 + CODES + number,
        }
    }
}

impl fmt::Display for Figure {
    fn fmt(&self, f: &mut fmt::Formatter<'_>) -> fmt::Result {
        match *self {
            Figure::Rule => f.write_str("longest rule accepted"),
            Figure::Result => f.write_str("longest result"),
            Figure::Replacements => f.write_str("most replacements"),
            Figure::Passes => f.write_str("most passes"),
            Figure::Actions(code) => write!(f, "most {}", plural(code)),
            Figure::Place(number) => write!(f, "furthest place of {number}"),
        }
    }
}

fn plural(code: u32) -> &'static str {
    match code {
        LET => "lets",
        SET => "sets",
        DELETE => "deletes",
        SUBSUME => "subsumes",
        UNION => "unions",
        PANIC => "panics",
        CALL => "calls",
        _ => "expressions",
    }
}

/// The figures of one kind or of one call.
#[derive(Debug, Clone)]
pub struct Tally {
    pub name: &'static str,
    pub cases: u64,
    pub accepted: u64,
    pub refused: [u64; NUMBERS],
    largest: [u64; FIGURES],
    pub time: Duration,
}

impl Tally {
    pub fn new(name: &'static str) -> Tally {
        Tally { name, cases: 0, accepted: 0, refused: [0; NUMBERS], largest: [0; FIGURES], time: Duration::ZERO }
    }

    pub fn largest(&self, figure: Figure) -> u64 {
        self.largest[figure.index()]
    }

    fn reach(&mut self, figure: Figure, value: u64) {
        let largest = &mut self.largest[figure.index()];
        *largest = value.max(*largest);
    }

    pub fn count(&mut self, case: &Case, answer: &Answer) {
        self.cases += 1;
        if answer.number == 0 {
            self.count_accepted(case, answer);
        } else {
            let number = usize::try_from(answer.number).ok().filter(|&number| number < NUMBERS).unwrap_or(0);
            self.refused[number] += 1;
            self.reach(Figure::Place(number), answer.place);
        }
    }

    fn count_accepted(&mut self, case: &Case, answer: &Answer) {
        self.accepted += 1;
        self.reach(Figure::Rule, case.rule.len() as u64);
        self.reach(Figure::Result, answer.words);
        self.reach(Figure::Replacements, answer.replacements);
        self.reach(Figure::Passes, answer.passes);
        // In a rule that is accepted, words of this kind begin actions and stand nowhere else.
        let mut actions = [0; CODES];
        for word in case.rule.iter().filter(|word| word.leading_zeros() == ACTION_KIND) {
            actions[*word as u8 as usize % CODES] += 1;
        }
        (1..).zip(&actions[1..]).for_each(|(code, &count)| self.reach(Figure::Actions(code), count));
    }

    pub fn add(&mut self, other: &Tally) {
        self.cases += other.cases;
        self.accepted += other.accepted;
        self.refused.iter_mut().zip(other.refused).for_each(|(sum, more)| *sum += more);
        self.largest.iter_mut().zip(other.largest).for_each(|(largest, more)| *largest = more.max(*largest));
        self.time += other.time;
    }
}

/// The figures of a run.
pub struct Figures {
    /// One for each kind that was begun.
    pub kinds: Vec<Tally>,
    /// One for each call.
    pub calls: [Tally; 3],
}

impl Figures {
    pub fn new() -> Figures {
        Figures { kinds: Vec::new(), calls: of_calls() }
    }

    /// What is counted from here on is of this kind.
    pub fn begin(&mut self, kind: &'static str) {
        self.kinds.push(Tally::new(kind));
    }

    /// How many cases of the last kind begun have been counted.
    pub fn count(&mut self, case: &Case, answer: &Answer) -> u64 {
        self.calls[case.call as usize].count(case, answer);
        self.kinds.last_mut().map_or(0, |kind| {
            kind.count(case, answer);
            kind.cases
        })
    }

    /// The last kind begun took so long.
    pub fn end(&mut self, time: Duration) {
        if let Some(kind) = self.kinds.last_mut() {
            kind.time = time;
        }
    }
}

impl Default for Figures {
    fn default() -> Figures {
        Figures::new()
    }
}

/// A tally for each call, in the order of `Call`.
pub fn of_calls() -> [Tally; 3] {
    [Call::Lower, Call::Settle, Call::FreeVars].map(|call| Tally::new(call.name()))
}

#[cfg(test)]
mod tests {
    use super::{Figure, Figures};
    use crate::case::{Call, Case};
    use crate::words::{DELETE, LET, action, call, header, literal, name};
    use tulgarent::Answer;

    fn accepted(words: u64, replacements: u64, passes: u64) -> Answer {
        Answer { number: 0, place: 0, words, replacements, passes }
    }

    #[test]
    fn calls_and_kinds_are_counted_apart() {
        let lets = [header(0, 2), action(LET), name(1), literal(2), action(LET), name(2), literal(3)].to_vec();
        let delete = vec![header(0, 1), action(DELETE), call(0, 0)];
        let mut figures = Figures::new();
        figures.begin("one");
        assert_eq!(figures.count(&Case::new(Call::Lower, Vec::new(), lets), &accepted(9, 1, 2)), 1);
        figures.begin("two");
        let refused = Answer { number: 7, place: 400, words: 0, replacements: 0, passes: 0 };
        figures.count(&Case::new(Call::Lower, Vec::new(), Vec::new()), &refused);
        assert_eq!(figures.count(&Case::new(Call::Settle, Vec::new(), delete), &accepted(3, 0, 1)), 2);
        let [lower, settle, free_vars] = &figures.calls;
        assert_eq!((lower.cases, settle.cases, free_vars.cases), (2, 1, 0));
        assert_eq!((lower.largest(Figure::Actions(LET)), settle.largest(Figure::Actions(DELETE))), (2, 1));
        assert_eq!((lower.largest(Figure::Place(7)), lower.refused[7]), (400, 1));
        assert_eq!((lower.largest(Figure::Result), settle.largest(Figure::Passes)), (9, 1));
        let [one, two] = &figures.kinds[..] else { panic!("two kinds were begun") };
        assert_eq!((one.cases, two.cases, two.largest(Figure::Place(7))), (1, 2, 400));
    }
}
