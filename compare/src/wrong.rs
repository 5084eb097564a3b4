//! Shows that a wrong lowerer is caught: copies of the Rust, each with one mistake, in the archive's place.

use crate::case::Call;
use crate::kinds::KINDS;
use crate::report::grouped;
use crate::run::{Failure, Run};
use crate::sides::{BodyCountsAfterArguments, EqualitiesBehind, ReplacesInActions, Side};
use crate::tampering::{Left, Tampering};
use crate::words::{SCRATCH_WORDS, WRITTEN_WORDS};
use std::time::{Duration, Instant};

struct Mistake {
    name: &'static str,
    what: &'static str,
    side: &'static dyn Side,
}

/// First 01's mistakes of drafts, in the source's functions; then mistakes around them, most of which few cases show.
const MISTAKES: &[Mistake] = &[
    Mistake {
        name: "replaces_in_actions",
        what: "replaces inside existing actions too, instead of only putting bindings before them",
        side: &ReplacesInActions,
    },
    Mistake {
        name: "body_counts_after_arguments",
        what: "takes body counts after the arguments",
        side: &BodyCountsAfterArguments,
    },
    Mistake { name: "equalities_behind", what: "puts new equalities behind the atoms", side: &EqualitiesBehind },
    Mistake {
        name: "exchanges_last_two",
        what: "exchanges the last two free variables of rows longer than 20",
        side: &Tampering(exchange_last_two),
    },
    Mistake {
        name: "counters_before_output",
        what: "moves the counters before it asks for output, and leaves them moved if there is too little",
        side: &Tampering(move_counters_anyway),
    },
    Mistake {
        name: "byte_past_words",
        what: "writes a zero byte past the words of a result, if there is output for it",
        side: &Tampering(end_with_zero),
    },
    Mistake { name: "hundred_passes", what: "counts no more than 100 passes", side: &Tampering(count_to_hundred) },
];

fn exchange_last_two(left: &mut Left) {
    if left.call == Call::FreeVars && left.answer.words > 20 {
        let end = 4 * left.answer.words as usize;
        left.output[end - 8..end].rotate_left(4);
    }
}

fn move_counters_anyway(left: &mut Left) {
    if left.call == Call::Lower && left.answer.number == 10 {
        // As much output as any result asks for.
        let mut output = [0; 4 * 4 * WRITTEN_WORDS];
        oracle::lower_bytes(left.signature, left.rule, left.counters, &mut output, 4 * SCRATCH_WORDS);
    }
}

fn end_with_zero(left: &mut Left) {
    if left.answer.number == 0
        && let Some(past) = left.output.get_mut(4 * left.answer.words as usize)
    {
        *past = 0;
    }
}

fn count_to_hundred(left: &mut Left) {
    left.answer.passes = left.answer.passes.min(100);
}

/// The wrong copy of this name.
pub fn named(name: &str) -> Option<&'static dyn Side> {
    MISTAKES.iter().find(|mistake| mistake.name == name).map(|mistake| mistake.side)
}

/// The trial rules are left out: they were written to show 01's mistakes, and the other cases must find them too.
const LEFT_OUT: &str = "trials";
/// How long a finding is shrunk at most.
const PATIENCE: Duration = Duration::from_secs(1);
/// Smallest cases whose rule has more words are not printed.
const SHORT: usize = 40;

/// Tries the mistake of this name, or each. False if one is not caught, or has no such name.
pub fn all_caught(name: Option<&str>, seed: u64) -> bool {
    let asked: Vec<&Mistake> = MISTAKES.iter().filter(|mistake| name.is_none_or(|name| name == mistake.name)).collect();
    // Each is tried, also after one that was not caught.
    let caught = asked.iter().filter(|mistake| caught(mistake, seed)).count();
    if asked.is_empty() {
        eprintln!("there is no wrong copy of this name");
    }
    println!("{caught} of {} wrong copies caught", asked.len());
    caught > 0 && caught == asked.len()
}

fn caught(mistake: &Mistake, seed: u64) -> bool {
    let started = Instant::now();
    println!("{}: {}", mistake.name, mistake.what);
    let mut run = Run::new(mistake.side, seed);
    let kinds = KINDS.iter().filter(|kind| kind.name != LEFT_OUT);
    let failures: Vec<Box<Failure>> = kinds.filter_map(|kind| run.first_failure(kind, kind.sample())).collect();
    let by: Vec<String> =
        failures.iter().map(|failure| format!("{} {}", failure.kind, grouped(failure.index))).collect();
    // The longest rule asks most of shrinking.
    let Some(longest) = failures.into_iter().max_by_key(|failure| failure.case.rule.len()) else {
        println!("  NOT caught\n");
        return false;
    };
    println!("  caught by the cases {}", by.join(", "));
    let finding = run.told(longest, PATIENCE);
    let told = if finding.words() <= SHORT { finding.to_string() } else { finding.in_short() };
    told.lines().for_each(|line| println!("  {line}"));
    println!("  {:.1} s\n", started.elapsed().as_secs_f64());
    true
}

#[cfg(test)]
mod tests {
    use super::MISTAKES;
    use crate::case::{Call, Case};
    use crate::records::Signature;
    use crate::trial::{Bench, Difference};
    use crate::words::{DELETE, action, call, header, name};

    fn difference(mistake: &str, case: &Case) -> Option<Difference> {
        let mistake = MISTAKES.iter().find(|known| known.name == mistake).expect("a mistake of this name");
        Bench::new().compare(mistake.side, case).1
    }

    fn row_of(variables: u32) -> Case {
        let start = [header(0, 1), action(DELETE), call(1, variables as usize)];
        let rule = start.into_iter().chain((1..=variables).map(name)).collect();
        Case::new(Call::FreeVars, Signature::trial().words(), rule)
    }

    #[test]
    fn only_long_rows_are_exchanged() {
        assert_eq!(difference("exchanges_last_two", &row_of(20)), None);
        assert_eq!(difference("exchanges_last_two", &row_of(21)), Some(Difference::Output(4 * 19)));
    }

    #[test]
    fn counters_are_left_moved_if_output_is_short() {
        let enough = Case::new(Call::Lower, Signature::trial().words(), vec![header(1, 0), call(1, 0)]);
        assert_eq!(difference("counters_before_output", &enough), None);
        let short = Case { output: 2, ..enough };
        assert_eq!(difference("counters_before_output", &short), Some(Difference::Counters(4)));
    }

    #[test]
    fn the_byte_past_the_words_is_written() {
        // Dirt of ones.
        let case = Case { dirt: 1, ..row_of(3) };
        assert_eq!(difference("byte_past_words", &case), Some(Difference::Output(12)));
        assert_eq!(difference("byte_past_words", &Case { output: 3, ..case }), None);
    }

    #[test]
    fn passes_are_counted_to_a_hundred() {
        let links = |count: u32| {
            let atoms = (0..count).flat_map(|at| [call(1, 2), name(1 + at.saturating_sub(1)), name(1 + at)]);
            let rule = [header(count as usize, 0)].into_iter().chain(atoms).collect();
            Case::new(Call::Settle, Signature::trial().words(), rule)
        };
        assert_eq!(difference("hundred_passes", &links(100)), None);
        assert_eq!(difference("hundred_passes", &links(101)), Some(Difference::Answer));
    }
}
