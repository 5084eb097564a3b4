//! Both sides over one family: a round takes every rule of it once, part by part.

use crate::families::{Call, Family};
use oracle::prepared::{Decoded, Flat, Generator, Written};
use std::hint::black_box;
use std::ops::Range;
use tulgarent::{
    Counters, Lowered, Output, SCRATCH_WORDS, Scratch, Signature, free_vars, lower, room_for_free_vars, room_to_lower,
    room_to_settle, settle,
};

/// The archive: the whole exported call, with all memory lent once.
pub struct Ours<'a> {
    family: &'a Family,
    counters: Vec<u32>,
    output: Vec<u32>,
    scratch: Vec<u32>,
}

/// What settling counted for a rule; nothing for free variables.
pub struct Counts {
    pub replacements: usize,
    pub passes: usize,
}

impl<'a> Ours<'a> {
    pub fn new(family: &'a Family) -> Ours<'a> {
        let longest = family.rules.iter().map(Vec::len).max().unwrap_or(0);
        let room = match family.call {
            Call::Lower => room_to_lower(longest),
            Call::Settle => room_to_settle(longest),
            Call::FreeVars => room_for_free_vars(longest),
        };
        Ours { family, counters: vec![0; family.heads()], output: vec![0; room], scratch: vec![0; SCRATCH_WORDS] }
    }

    /// Counters to zero. Scratch is left as the last call left it.
    pub fn clear(&mut self) {
        self.counters.fill(0);
    }

    /// These rules of the round.
    pub fn part(&mut self, rules: Range<usize>) {
        for rule in &self.family.rules[rules] {
            let _ = black_box(self.call(black_box(rule)));
        }
    }

    /// What each rule gives, from cleared counters on.
    pub fn results(&mut self) -> Vec<(Counts, Vec<u32>)> {
        self.clear();
        let rules = &self.family.rules;
        rules.iter().map(|rule| self.result(rule)).collect()
    }

    fn result(&mut self, rule: &[u32]) -> (Counts, Vec<u32>) {
        let Lowered { words, replacements, passes } = self.call(rule);
        (Counts { replacements, passes }, words.to_vec())
    }

    fn call(&mut self, rule: &[u32]) -> Lowered<'_, u32> {
        // Here alone: elsewhere these are the Rust's.
        use tulgarent::{Flat, Written};
        let signature = Signature(&self.family.signature);
        let (output, scratch) = (Output(&mut self.output), Scratch(&mut self.scratch));
        let answer = match self.family.call {
            Call::Lower => lower(signature, Written(rule), Counters(&mut self.counters), output, scratch),
            Call::Settle => settle(signature, Flat(rule), output, scratch),
            Call::FreeVars => {
                free_vars(signature, Flat(rule), output).map(|words| Lowered { words, replacements: 0, passes: 0 })
            }
        };
        answer.unwrap_or_else(|refusal| panic!("{}: {refusal}", self.family.name))
    }
}

/// The Rust: the source's functions on decoded rules. What they return is freed in the round, as whoever called must.
pub struct Rust {
    signature: Decoded,
    generator: Generator,
    rules: Rules,
}

enum Rules {
    Lower(Vec<Written>),
    /// Settling takes its rule, so each round gets copies of its own.
    Settle {
        rules: Vec<Flat>,
        copies: Vec<Option<Flat>>,
    },
    FreeVars(Vec<Flat>),
}

impl Rust {
    pub fn new(family: &Family) -> Rust {
        let signature = Decoded::new(&family.signature).expect("the family's signature is good");
        let written = || family.rules.iter().map(|rule| signature.written(rule).expect("a good rule")).collect();
        let flat = || family.rules.iter().map(|rule| signature.flat(rule).expect("a good rule")).collect();
        let rules = match family.call {
            Call::Lower => Rules::Lower(written()),
            Call::Settle => Rules::Settle { rules: flat(), copies: Vec::new() },
            Call::FreeVars => Rules::FreeVars(flat()),
        };
        let generator = signature.generator();
        Rust { signature, generator, rules }
    }

    /// Counters to zero; copies of the rules that the round will use up.
    pub fn clear(&mut self) {
        self.generator = self.signature.generator();
        if let Rules::Settle { rules, copies } = &mut self.rules {
            *copies = rules.iter().cloned().map(Some).collect();
        }
    }

    /// These rules of the round.
    pub fn part(&mut self, part: Range<usize>) {
        let Rust { signature, generator, rules } = self;
        match rules {
            Rules::Lower(rules) => {
                for rule in &rules[part] {
                    drop(black_box(signature.lower(black_box(rule), generator)));
                }
            }
            Rules::Settle { copies, .. } => {
                for rule in copies[part].iter_mut().filter_map(Option::take) {
                    drop(black_box(signature.settle(black_box(rule))));
                }
            }
            Rules::FreeVars(rules) => {
                for rule in &rules[part] {
                    drop(black_box(black_box(rule).free_vars()));
                }
            }
        }
    }

    /// The words that each rule gives, from cleared counters on.
    pub fn results(&mut self) -> Vec<Vec<u32>> {
        self.clear();
        let Rust { signature, generator, rules } = self;
        match rules {
            Rules::Lower(rules) => rules
                .iter()
                .map(|rule| signature.lower(rule, generator).expect("a rule that is accepted").words())
                .collect(),
            Rules::Settle { rules, .. } => rules.iter().map(|rule| signature.settle(rule.clone()).words()).collect(),
            Rules::FreeVars(rules) => rules.iter().map(|rule| rule.free_vars().words()).collect(),
        }
    }
}
