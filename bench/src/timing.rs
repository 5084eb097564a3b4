//! Rounds on both sides by turns, some rounds a turn. Each part of a round is timed by itself, and a side's time is the sum of the least times
//! of its parts: a part is short enough to run undisturbed now and then, where a whole round would not.

use crate::clock::time;
use crate::families::Family;
use crate::sides::{Counts, Ours, Rust};
use std::ops::Range;
use std::time::{Duration, Instant};

/// Rounds go on for so long for each family, both sides together.
const LONG_ENOUGH: Duration = Duration::from_secs(3);
/// At least so many turns.
const TURNS: usize = 2;
/// A side runs so many rounds in its turn, so that what it runs again and again it finds as it left it.
const ROUNDS: usize = 20;
/// A part has about so many words, and at least one rule.
const PART_WORDS: usize = 1_000;

/// What was measured for one family. Words and counts are means over its rules.
#[derive(Debug, Clone, PartialEq)]
pub struct Row {
    pub name: String,
    pub what: String,
    pub words: f64,
    pub replacements: f64,
    pub passes: f64,
    /// Nanoseconds a rule.
    pub rust: f64,
    pub ours: f64,
    /// How many times as long the Rust takes.
    pub ratio: f64,
}

/// The row, and how many rounds each side took for it.
pub fn measured(family: &Family) -> (Row, usize) {
    let (mut ours, mut rust) = (Ours::new(family), Rust::new(family));
    let counts = agreed(family, &mut ours, &mut rust);
    let rules = family.rules.len() as f64;
    let mean = |of: fn(&Counts) -> usize| counts.iter().map(of).sum::<usize>() as f64 / rules;
    let least = least_rounds(family, &mut ours, &mut rust);
    let (rust, ours) = (least.rust.as_nanos() as f64, least.ours.as_nanos() as f64);
    let row = Row {
        name: family.name.to_string(),
        what: family.what.to_string(),
        words: family.rules.iter().map(Vec::len).sum::<usize>() as f64 / rules,
        replacements: mean(|counts| counts.replacements),
        passes: mean(|counts| counts.passes),
        rust: rust / rules,
        ours: ours / rules,
        ratio: rust / ours,
    };
    (row, least.rounds)
}

/// Both sides give the same words for every rule of the round; this side's counts of it.
fn agreed(family: &Family, ours: &mut Ours, rust: &mut Rust) -> Vec<Counts> {
    let given = ours.results();
    for (rule, ((_, ours), rust)) in given.iter().zip(rust.results()).enumerate() {
        assert_eq!(*ours, rust, "{}, rule {rule}: the words differ", family.name);
    }
    given.into_iter().map(|(counts, _)| counts).collect()
}

struct Least {
    ours: Duration,
    rust: Duration,
    rounds: usize,
}

/// The sides take turns, so that whatever else the machine does meets both.
fn least_rounds(family: &Family, ours: &mut Ours, rust: &mut Rust) -> Least {
    let parts = parts(family);
    let mut ours_least = vec![Duration::MAX; parts.len()];
    let mut rust_least = ours_least.clone();
    let (begun, mut turns) = (Instant::now(), 0);
    while turns < TURNS || begun.elapsed() < LONG_ENOUGH {
        for _ in 0..ROUNDS {
            rust.clear();
            time_parts(&parts, &mut rust_least, |part| rust.part(part));
        }
        for _ in 0..ROUNDS {
            ours.clear();
            time_parts(&parts, &mut ours_least, |part| ours.part(part));
        }
        turns += 1;
    }
    Least { ours: ours_least.iter().sum(), rust: rust_least.iter().sum(), rounds: turns * ROUNDS }
}

/// The family's rules in parts, all alike in size but the last.
fn parts(family: &Family) -> Vec<Range<usize>> {
    let rules = family.rules.len();
    let words: usize = family.rules.iter().map(Vec::len).sum();
    let size = (PART_WORDS * rules / words).max(1);
    (0..rules).step_by(size).map(|from| from..rules.min(from + size)).collect()
}

fn time_parts(parts: &[Range<usize>], least: &mut [Duration], mut run: impl FnMut(Range<usize>)) {
    for (part, least) in parts.iter().zip(least) {
        *least = time(|| run(part.clone())).min(*least);
    }
}

#[cfg(test)]
mod tests {
    use super::*;
    use crate::families;

    #[test]
    fn both_sides_agree_on_every_family() {
        for family in families::ten().iter().chain(&families::more()) {
            agreed(family, &mut Ours::new(family), &mut Rust::new(family));
        }
    }

    #[test]
    fn the_fixed_families_have_their_figures() {
        let figures = [
            ("merges", 511, 247, 232),
            ("equalities", 511, 170, 1),
            ("chain", 509, 127, 1),
            ("same", 512, 510, 2),
            ("wide", 512, 0, 1),
            ("heads", 511, 0, 1),
        ];
        for (name, words, replacements, passes) in figures {
            let family = families::ten().into_iter().find(|family| family.name == name).expect("it is there");
            let (counts, _) = Ours::new(&family).results().remove(0);
            let found = (family.rules[0].len(), counts.replacements, counts.passes);
            assert_eq!(found, (words, replacements, passes), "{name}");
        }
    }

    #[test]
    fn parts_are_all_rules_once() {
        for family in families::ten() {
            let rules: Vec<usize> = parts(&family).into_iter().flatten().collect();
            assert!(rules.into_iter().eq(0..family.rules.len()), "{}", family.name);
        }
    }
}
