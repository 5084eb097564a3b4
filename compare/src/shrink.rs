//! From a case that differs to a smallest one that still does.
//!
//! Each round tries simpler cases, the boldest first, and takes the first that differs too, in whatever way. It ends when
//! no simpler case differs: every candidate is shorter, or has smaller words, or less that is out of the ordinary.

use crate::case::{Call, Case, Five, ample_output};
use crate::interrupt;
use crate::progress::Progress;
use crate::report::grouped;
use crate::words::{
    CALL, COUNTS, EQUALITY, LET, NAMES, PRIMITIVE, SCRATCH_WORDS, SET, UNION, action, count_of, header, is_call,
    literal, name, signature_word,
};
use std::cell::Cell;
use std::ops::Range;
use std::time::{Duration, Instant};

/// How many candidates are tried at most. Far more than small cases need; it bounds the time of large ones.
const TRIES: u64 = 200_000;

/// Rules of up to so many words are shrunk by two steps at once.
const SHORT: usize = 24;

/// What shrinking came to.
pub struct Shrunk {
    pub case: Case,
    /// How many candidates were tried.
    pub tries: u64,
    /// Whether every candidate was tried, so that no smaller case is known; else patience ended first.
    pub smallest: bool,
}

/// Says every few seconds how far it is. An interruption ends it as the end of patience does.
pub fn shrink(case: Case, patience: Duration, differs: &mut dyn FnMut(&Case) -> bool) -> Shrunk {
    let started = Instant::now();
    let words = Cell::new(case.rule.len());
    let patient = Cell::new(true);
    let mut progress = Progress::new();
    let mut still_differs = |candidate: &Case| {
        progress.step(|tries| format!("shrinking: {} tries, now a rule of {} words", grouped(tries), words.get()));
        patient.set(progress.steps <= TRIES && started.elapsed() < patience && !interrupt::asked());
        patient.get() && differs(candidate)
    };
    let mut case = case;
    loop {
        words.set(case.rule.len());
        let smaller = candidates(&case).take_while(|_| patient.get()).find(&mut still_differs);
        let smaller = smaller.or_else(|| two_steps(&case).take_while(|_| patient.get()).find(&mut still_differs));
        let Some(smaller) = smaller else { break };
        case = smaller;
    }
    Shrunk { case, tries: progress.steps, smallest: patient.get() }
}

fn candidates(case: &Case) -> impl Iterator<Item = Case> + '_ {
    let rules = shorter_rules(&case.rule).chain(lower_words(&case.rule)).map(|rule| with_rule(case, rule));
    ordinary(case).chain(rules).chain(signatures(case)).chain(counters(case))
}

/// Where no single step leads on, two at once may. There are too many of them for a long rule.
fn two_steps(case: &Case) -> impl Iterator<Item = Case> + '_ {
    let first_steps = candidates(case).filter(|_| case.rule.len() <= SHORT);
    first_steps.flat_map(|first| candidates(&first).collect::<Vec<_>>())
}

/// Output that was ample stays so.
fn with_rule(case: &Case, rule: Vec<u32>) -> Case {
    let was_ample = case.output == ample_output(case.call, case.rule.len());
    let output = if was_ample { ample_output(case.call, rule.len()) } else { case.output };
    Case { rule, output, ..case.clone() }
}

/// Nothing special about the slices.
fn ordinary(case: &Case) -> impl Iterator<Item = Case> + '_ {
    let plain = Case::new(case.call, case.signature.clone(), case.rule.clone());
    let scratch = if case.call == Call::FreeVars { 0 } else { SCRATCH_WORDS };
    let candidates = [
        plain,
        Case { ragged: Five::default(), ..case.clone() },
        Case { output: ample_output(case.call, case.rule.len()), ..case.clone() },
        Case { scratch, ..case.clone() },
        Case { offsets: Five::default(), ..case.clone() },
        Case { dirt: 0, ..case.clone() },
    ];
    candidates.into_iter().filter(move |candidate| candidate != case)
}

fn counters(case: &Case) -> impl Iterator<Item = Case> + '_ {
    let used = (0..case.counters.len()).filter(|&at| case.counters[at] != 0);
    used.map(|at| {
        let mut candidate = case.clone();
        candidate.counters[at] = 0;
        candidate
    })
}

/// Fewer heads and globals, no flag, plain functions.
fn signatures(case: &Case) -> impl Iterator<Item = Case> + '_ {
    fewer_heads(case).chain(value_eq_first(case)).chain(lower_signature_words(case))
}

fn fewer_heads(case: &Case) -> impl Iterator<Item = Case> + '_ {
    let heads = case.signature.len().saturating_sub(4);
    let less = [heads / 2, 1].into_iter().filter(move |&less| 0 < less && less < heads);
    less.map(move |less| {
        let mut candidate = case.clone();
        candidate.signature.truncate(4 + heads - less);
        candidate.signature[0] = signature_word((heads - less) as u32);
        candidate.counters.truncate(case.counters.len().saturating_sub(less));
        candidate
    })
}

/// Value-eq must be primitive, so it can't move to another head by one word.
fn value_eq_first(case: &Case) -> impl Iterator<Item = Case> + '_ {
    let moves = case.signature.len() > 4 && case.signature[2] > signature_word(0);
    moves
        .then(|| {
            let mut candidate = case.clone();
            candidate.signature[2] = signature_word(0);
            candidate.signature[4] = signature_word(PRIMITIVE);
            candidate
        })
        .into_iter()
}

fn lower_signature_words(case: &Case) -> impl Iterator<Item = Case> + '_ {
    (1..case.signature.len()).flat_map(move |at| {
        let word = case.signature[at];
        let lower = [0, 1, word % COUNTS / 2].map(signature_word).into_iter().filter(move |&lower| lower < word);
        lower.map(move |lower| {
            let mut candidate = case.clone();
            candidate.signature[at] = lower;
            candidate
        })
    })
}

/// Rules with fewer words, the boldest cuts first.
fn shorter_rules(rule: &[u32]) -> impl Iterator<Item = Vec<u32>> + '_ {
    without_items(rule)
        .chain(without_arguments(rule))
        .chain(leaves_for_calls(rule))
        .chain(arguments_for_calls(rule))
        .chain(without_a_word(rule))
}

/// Without a run of facts or of actions.
fn without_items(rule: &[u32]) -> impl Iterator<Item = Vec<u32>> + '_ {
    let items = items(rule);
    let facts = items.iter().filter(|item| item.is_fact).count();
    let runs = runs(0..facts).chain(runs(facts..items.len()));
    runs.map(move |run| without(rule, &items[run]))
}

/// All of a list, each half, each quarter, down to each one.
fn runs(range: Range<usize>) -> impl Iterator<Item = Range<usize>> {
    let sizes = std::iter::successors(Some(range.len()), |size| Some(size / 2)).take_while(|&size| size > 0);
    sizes.flat_map(move |size| {
        let end = range.end;
        range.clone().step_by(size).map(move |from| from..(from + size).min(end))
    })
}

fn calls(rule: &[u32]) -> impl Iterator<Item = usize> + '_ {
    (1..rule.len()).filter(|&at| is_call(rule[at]))
}

/// With a literal or a name in a call's place. A call of nothing is no longer than these, but has more to it.
fn leaves_for_calls(rule: &[u32]) -> impl Iterator<Item = Vec<u32>> + '_ {
    calls(rule).flat_map(move |at| {
        let end = end_of_expr(rule, at);
        [literal(0), name(0)].map(|leaf| [&rule[..at], &[leaf], &rule[end..]].concat())
    })
}

/// With one of its arguments in a call's place.
fn arguments_for_calls(rule: &[u32]) -> impl Iterator<Item = Vec<u32>> + '_ {
    calls(rule).flat_map(move |at| {
        let end = end_of_expr(rule, at);
        let instead = move |argument: Range<usize>| [&rule[..at], &rule[argument], &rule[end..]].concat();
        arguments(rule, at).into_iter().map(instead)
    })
}

/// With a run of arguments less under a call.
fn without_arguments(rule: &[u32]) -> impl Iterator<Item = Vec<u32>> + '_ {
    calls(rule).flat_map(move |at| {
        let arguments = arguments(rule, at);
        runs(0..arguments.len()).map(move |run| {
            let mut words = rule.to_vec();
            words[at] -= run.len() as u32;
            words.drain(arguments[run.start].start..arguments[run.end - 1].end);
            words
        })
    })
}

/// The only cut that a rule with no form has, and last, since it takes the form of any other.
fn without_a_word(rule: &[u32]) -> impl Iterator<Item = Vec<u32>> + '_ {
    (0..rule.len()).map(|at| [&rule[..at], &rule[at + 1..]].concat())
}

/// Rules as long, with a word or a head replaced by a lower one of its kind wherever it stands.
fn lower_words(rule: &[u32]) -> impl Iterator<Item = Vec<u32>> + '_ {
    let first = |at: usize| !rule[..at].contains(&rule[at]);
    (1..rule.len()).filter(move |&at| first(at)).flat_map(move |at| {
        let everywhere = move |lower| rule.iter().map(|&word| if word == rule[at] { lower } else { word }).collect();
        lower_ones(rule[at]).into_iter().map(everywhere).chain(with_lower_head(rule, at))
    })
}

/// The head of this word, if it has one, becomes the one below it in calls and fresh variables.
fn with_lower_head(rule: &[u32], at: usize) -> Option<Vec<u32>> {
    let head = head_of(rule[at]).filter(|&head| head > 0)?;
    Some(rule.iter().map(|&word| if head_of(word) == Some(head) { word - COUNTS } else { word }).collect())
}

/// Kind 3 words and fresh variables have a head, in the same bits.
fn head_of(word: u32) -> Option<u32> {
    matches!(word.leading_zeros(), 0 | 3).then_some(word / COUNTS % NAMES)
}

fn lower_ones(word: u32) -> Vec<u32> {
    let kind = word.leading_zeros();
    let top = 0x8000_0000_u32.checked_shr(kind).unwrap_or(0);
    let payload = word - top;
    let (head, count) = (payload / COUNTS, payload % COUNTS);
    let payloads = match kind {
        0 => vec![0, head * COUNTS, count, 1, payload.saturating_sub(1)],
        1 | 2 => vec![0, 1, 2, payload.saturating_sub(1)],
        // Another head with as many under it.
        3 => vec![count, COUNTS + count, payload.saturating_sub(COUNTS)],
        _ => Vec::new(),
    };
    payloads.into_iter().map(|less| top + less).filter(|&lower| lower < word).collect()
}

/// A fact, atom or action of a rule.
struct Item {
    words: Range<usize>,
    is_fact: bool,
}

/// The items of a rule, as far as they can be told; what is read wrongly makes candidates that do not differ, no more.
fn items(rule: &[u32]) -> Vec<Item> {
    let Some(&first) = rule.first() else { return Vec::new() };
    let (facts, actions) = (first / NAMES % NAMES, first % NAMES);
    let mut items = Vec::new();
    let mut at = 1;
    for is_fact in (0..facts).map(|_| true).chain((0..actions).map(|_| false)) {
        let Some(&word) = rule.get(at) else { break };
        let (before, values) = match word {
            EQUALITY => (1, 2),
            _ if is_fact => (0, 1),
            _ => (1, if [LET, SET, UNION, CALL].map(action).contains(&word) { 2 } else { 1 }),
        };
        let end = (0..values).fold(at + before, |at, _| end_of_expr(rule, at)).min(rule.len());
        items.push(Item { words: at..end, is_fact });
        at = end;
    }
    items
}

/// The rule without these items, which stand side by side and are all facts or all actions.
fn without(rule: &[u32], gone: &[Item]) -> Vec<u32> {
    let (Some(first), Some(last)) = (gone.first(), gone.last()) else { return rule.to_vec() };
    let (facts, actions) = if first.is_fact { (gone.len(), 0) } else { (0, gone.len()) };
    let less = header(facts, actions) - header(0, 0);
    let mut words = rule.to_vec();
    words[0] -= less;
    words.drain(first.words.start..last.words.end);
    words
}

/// Where each argument of the call at this place stands.
fn arguments(rule: &[u32], at: usize) -> Vec<Range<usize>> {
    let mut from = at + 1;
    let mut arguments = Vec::new();
    while arguments.len() < count_of(rule[at]) && from < rule.len() {
        let end = end_of_expr(rule, from);
        arguments.push(from..end);
        from = end;
    }
    arguments
}

/// Where the expression that begins here ends, at most at the rule's end.
fn end_of_expr(rule: &[u32], mut at: usize) -> usize {
    let mut to_come = 1;
    while to_come > 0 && at < rule.len() {
        to_come += count_of(rule[at]);
        to_come -= 1;
        at += 1;
    }
    at
}

#[cfg(test)]
mod tests {
    use super::{Shrunk, shrink};
    use crate::case::{Call, Case, Five};
    use crate::draw::Draw;
    use crate::records::{Signature, Writer};
    use crate::words::{DELETE, action, call, name};
    use std::time::Duration;

    const PATIENCE: Duration = Duration::from_secs(600);

    /// Rules that the oracle accepts and that delete something: the smallest of them is a delete of nothing.
    #[test]
    fn a_long_rule_becomes_a_smallest_one() {
        let mut draw = Draw::of_case(1, "shrink", 0);
        let signature = Signature::trial();
        let mut differs = |case: &Case| {
            case.rule.contains(&action(DELETE))
                && oracle::lower(&case.signature, &case.rule, &mut case.counters.clone()).is_ok()
        };
        let mut tried = 0;
        while tried < 20 {
            let rule = Writer::new(&mut draw, &signature).written(120);
            let offsets = Five { rule: 3, ..Five::default() };
            let case = Case { offsets, dirt: 9, ..Case::new(Call::Lower, signature.words(), rule) };
            if !differs(&case) {
                continue;
            }
            tried += 1;
            let Shrunk { case: smallest, smallest: all_tried, .. } = shrink(case, PATIENCE, &mut differs);
            assert!(all_tried);
            assert_eq!(smallest.rule, [0x0400_0001, 0x0200_0003, 0x1000_0000]);
            assert_eq!(smallest.signature, [0x0100_0001, 0x0100_0000, 0x0100_0000, 0x0100_0000, 0x0100_0002]);
            assert_eq!((smallest.offsets, smallest.dirt), (Five::default(), 0));
        }
    }

    /// No rule comes back longer, whatever the words are.
    #[test]
    fn damaged_rules_shrink_too() {
        let rule = vec![0x0400_3fff, 0x1001_ffff, name(1), 0x0200_0001, 0, u32::MAX, 0x0800_0002];
        let case = Case::new(Call::Settle, Signature::trial().words(), rule);
        let shrunk = shrink(case, PATIENCE, &mut |case| case.rule.contains(&u32::MAX));
        assert_eq!(shrunk.case.rule, [u32::MAX]);
    }

    /// A wide action loses its terms by halves, not one by one.
    #[test]
    fn a_long_row_becomes_as_short_as_it_may() {
        let terms = (1..=1_021).map(name);
        let rule: Vec<u32> = [0x0400_0001, action(DELETE), call(0, 1_021)].into_iter().chain(terms).collect();
        let case = Case::new(Call::FreeVars, Signature::trial().words(), rule);
        let shrunk = shrink(case, PATIENCE, &mut |case| {
            oracle::free_vars(&case.signature, &case.rule).is_ok_and(|row| row.len() > 20)
        });
        assert_eq!(shrunk.case.rule.len(), 24);
    }

    #[test]
    fn no_patience_leaves_a_case_as_it_is() {
        let case = Case::new(Call::Settle, Signature::trial().words(), vec![0; 9]);
        let shrunk = shrink(case.clone(), Duration::ZERO, &mut |_| true);
        assert_eq!((shrunk.case, shrunk.smallest), (case, false));
    }
}
