//! Every record of a length over a small alphabet.
//!
//! A record is spelt from left to right. What is still to come is a list of parts; the first of them is replaced by a word
//! and by the parts that the word asks for. A record is complete when nothing is to come.

use crate::words::{
    CALL, DELETE, EQUALITY, EXPRESSION, LET, PANIC, SET, SUBSUME, UNION, action, call, fresh, header, literal, name,
};
use std::ops::ControlFlow;

/// Something that a record is made of.
#[derive(Debug, Clone, Copy, PartialEq, Eq)]
enum Part {
    /// A fact of a written rule, or an atom of a flat one.
    Body,
    Action,
    /// An expression, or a term of a flat rule.
    Value,
    /// What a let or a call's answer is bound to.
    Target,
    /// The kind 3 word of an action and its arguments.
    Under,
    /// The same, and a value behind them.
    UnderWithValue,
    Literal,
}

/// A word that can stand first in a part, and what must follow it.
#[derive(Clone)]
struct Choice {
    word: u32,
    then: Vec<Part>,
}

/// The words that records are spelt with, by the part they stand first in.
pub struct Alphabet {
    body: Vec<Choice>,
    actions: Vec<Choice>,
    values: Vec<Choice>,
    targets: Vec<Choice>,
    under: Vec<Choice>,
    under_with_value: Vec<Choice>,
    literals: Vec<Choice>,
    /// The fewest words of a fact or atom.
    least_body: usize,
}

/// The fewest words of an action.
const LEAST_ACTION: usize = 2;

type Visit<'a> = dyn FnMut(&[u32]) -> ControlFlow<()> + 'a;

impl Alphabet {
    /// Written rules of heads 0 (value-eq), 1 (a function) and 2 (a constructor), names 0 (a global), 1 and 2, literals 0
    /// (Unit) and 1.
    pub fn written() -> Alphabet {
        let calls = [(1, 0), (1, 1), (2, 1), (1, 2), (0, 2)].map(|(head, count)| calling(head, count));
        let values = [leaves(&[name(0), name(1), name(2), literal(0), literal(1)]), calls.into()].concat();
        let expression = Choice { word: action(EXPRESSION), then: vec![Part::Value] };
        Alphabet {
            body: [vec![equality()], values.clone()].concat(),
            actions: [shared_actions(), vec![expression]].concat(),
            values,
            targets: leaves(&[name(0), name(1), name(2)]),
            under: vec![calling(1, 0), calling(2, 1)],
            under_with_value: vec![calling(1, 1), calling(2, 2)].into_iter().map(last_is_value).collect(),
            literals: leaves(&[literal(1)]),
            least_body: 1,
        }
    }

    /// Flat rules of heads 0 (value-eq) and 1, names 0 (a global), 1 and 2, a fresh variable, literals 0 (Unit) and 1.
    pub fn flat() -> Alphabet {
        let atoms = [(1, 1), (1, 2), (0, 2), (0, 3)].map(|(head, count)| calling(head, count));
        let answer = Choice { word: action(CALL), then: vec![Part::Target, Part::Under] };
        Alphabet {
            body: [vec![equality()], atoms.into()].concat(),
            actions: [shared_actions(), vec![answer]].concat(),
            values: leaves(&[name(0), name(1), name(2), fresh(1, 0), literal(0), literal(1)]),
            targets: leaves(&[name(0), name(1), fresh(1, 0)]),
            under: vec![calling(1, 0), calling(1, 1)],
            under_with_value: vec![calling(1, 1), calling(1, 2)].into_iter().map(last_is_value).collect(),
            literals: leaves(&[literal(1)]),
            least_body: 2,
        }
    }

    /// Visits every record of this many words, at least one. Each is well formed; what its names mean may still be wrong.
    pub fn each(&self, length: usize, visit: &mut Visit) -> ControlFlow<()> {
        for body in 0..=(length - 1) / self.least_body {
            let room = length - 1 - body * self.least_body;
            for actions in 0..=room / LEAST_ACTION {
                let mut to_come = [vec![Part::Action; actions], vec![Part::Body; body]].concat();
                self.spell(&mut vec![header(body, actions)], &mut to_come, length, visit)?;
            }
        }
        ControlFlow::Continue(())
    }

    /// The part that comes next is the last of `to_come`. Both lists are as they were when this returns.
    fn spell(
        &self,
        words: &mut Vec<u32>,
        to_come: &mut Vec<Part>,
        length: usize,
        visit: &mut Visit,
    ) -> ControlFlow<()> {
        let Some(part) = to_come.pop() else {
            return if words.len() == length { visit(words) } else { ControlFlow::Continue(()) };
        };
        let later = to_come.len();
        for choice in self.choices(part) {
            words.push(choice.word);
            to_come.extend(choice.then.iter().rev());
            if words.len() + to_come.iter().map(|&part| self.least(part)).sum::<usize>() <= length {
                self.spell(words, to_come, length, visit)?;
            }
            to_come.truncate(later);
            words.pop();
        }
        to_come.push(part);
        ControlFlow::Continue(())
    }

    fn choices(&self, part: Part) -> &[Choice] {
        match part {
            Part::Body => &self.body,
            Part::Action => &self.actions,
            Part::Value => &self.values,
            Part::Target => &self.targets,
            Part::Under => &self.under,
            Part::UnderWithValue => &self.under_with_value,
            Part::Literal => &self.literals,
        }
    }

    fn least(&self, part: Part) -> usize {
        match part {
            Part::Body => self.least_body,
            Part::Action => LEAST_ACTION,
            Part::UnderWithValue => 2,
            Part::Value | Part::Target | Part::Under | Part::Literal => 1,
        }
    }
}

fn leaves(words: &[u32]) -> Vec<Choice> {
    words.iter().map(|&word| Choice { word, then: Vec::new() }).collect()
}

fn equality() -> Choice {
    Choice { word: EQUALITY, then: vec![Part::Value; 2] }
}

fn calling(head: u32, count: usize) -> Choice {
    Choice { word: call(head, count), then: vec![Part::Value; count] }
}

/// The count of a set's kind 3 word leaves out the value.
fn last_is_value(choice: Choice) -> Choice {
    Choice { word: choice.word - 1, ..choice }
}

/// What written and flat rules have in common.
fn shared_actions() -> Vec<Choice> {
    [
        (LET, vec![Part::Target, Part::Value]),
        (SET, vec![Part::UnderWithValue]),
        (DELETE, vec![Part::Under]),
        (SUBSUME, vec![Part::Under]),
        (UNION, vec![Part::Value; 2]),
        (PANIC, vec![Part::Literal]),
    ]
    .map(|(code, then)| Choice { word: action(code), then })
    .into()
}

#[cfg(test)]
mod tests {
    use super::Alphabet;
    use crate::words::record;
    use std::collections::HashSet;
    use std::ops::ControlFlow;

    const TRIAL: &str = "01000004 01000001 01000000 01000001 01000002 01000000 01000001 01000000";

    fn all(alphabet: &Alphabet, longest: usize) -> Vec<Vec<u32>> {
        let mut records = Vec::new();
        for length in 1..=longest {
            let _ = alphabet.each(length, &mut |words| {
                records.push(words.to_vec());
                ControlFlow::Continue(())
            });
        }
        records
    }

    #[test]
    fn no_record_comes_twice_and_each_is_well_formed() {
        let signature = record(TRIAL);
        let written = all(&Alphabet::written(), 5);
        assert_eq!(written.iter().collect::<HashSet<_>>().len(), written.len());
        for rule in &written {
            let answer = oracle::lower(&signature, rule, &mut [0; 4]);
            assert!(answer.is_ok() || answer.is_err_and(|refusal| matches!(refusal.number, 7 | 8)), "{rule:x?}");
        }
        let flat = all(&Alphabet::flat(), 6);
        assert_eq!(flat.iter().collect::<HashSet<_>>().len(), flat.len());
        assert!(flat.iter().all(|rule| oracle::settle(&signature, rule).is_ok()));
    }

    /// Counted by hand: three words after the header are one fact, or two, or three, or one and an action, or an action.
    #[test]
    fn none_is_left_out() {
        let written = all(&Alphabet::written(), 4);
        let of_length = |length| written.iter().filter(|rule| rule.len() == length).count();
        assert_eq!(of_length(1), 1);
        assert_eq!(of_length(2), 6, "five leaves and a call of nothing");
        let pairs = 6 * 6 + 2 * 6;
        let actions = 2 + 1 + 6;
        assert_eq!(
            of_length(3),
            pairs + actions,
            "two facts or a call of one; delete, subsume, panic, or an expression"
        );
    }
}
