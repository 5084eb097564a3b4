//! Long rules that are good up to a fault near their last word, and rules just as long that have none.

use super::long_heads::written;
use crate::case::{Call, Case};
use crate::draw::Draw;
use crate::records::{Signature, Writer, any_word, joined};
use crate::words::{
    CALLS, COUNTS, DELETE, EQUALITY, EXPRESSION, FLAT_WORDS, LET, NAMES, SET, SUBSUME, UNION, WRITTEN_WORDS, action,
    call, header, literal, name,
};

pub fn late_faults(draw: &mut Draw) -> Case {
    match draw.below(8) {
        0 | 1 => too_deep(draw),
        2..=4 => counter_ends(draw),
        5 => type_error(draw),
        6 => unfit(draw),
        _ => flat_fault(draw),
    }
}

/// Words of a rule of at most so many: mostly just so many.
fn length(draw: &mut Draw, most: usize) -> usize {
    let any = draw.between(most / 2, most);
    draw.pick(&[most, most, most - 1, any])
}

/// An expression inside 31, 32 or 33 calls, in the last fact or action. Refusal 6 comes before all that names and counters
/// give, so what stands before it may be anything well formed.
fn too_deep(draw: &mut Draw) -> Case {
    let signature = Signature::any_size(draw);
    let head = draw.below(signature.heads());
    let innermost = draw.pick(&[name(1), literal(3), call(head, 0)]);
    let deep = [vec![call(head, 1); draw.between(CALLS - 1, CALLS + 1)], vec![innermost]].concat();
    let words = length(draw, WRITTEN_WORDS);
    let last = match draw.below(7) {
        0 | 1 => {
            let rule = with_fact(facts_of(head, words - deep.len()), &deep);
            return Case::new(Call::Lower, signature.words(), rule);
        }
        2 => [vec![action(EXPRESSION)], deep].concat(),
        3 => [vec![action(LET), name(NAMES - 1)], deep].concat(),
        4 => [vec![action(SET), call(head, 0)], deep].concat(),
        5 => [vec![action(draw.pick(&[DELETE, SUBSUME])), call(head, 2), literal(1)], deep].concat(),
        _ => [vec![action(UNION), literal(0)], deep].concat(),
    };
    let rule = Writer::new(draw, &signature).written(words - last.len());
    Case::new(Call::Lower, signature.words(), with_action(rule, &last))
}

/// The rule, which has no actions, with one fact more.
fn with_fact(mut rule: Vec<u32>, last: &[u32]) -> Vec<u32> {
    rule[0] += header(1, 0) - header(0, 0);
    rule.extend(last);
    rule
}

/// The rule with one action more.
fn with_action(mut rule: Vec<u32>, last: &[u32]) -> Vec<u32> {
    rule[0] += header(0, 1) - header(0, 0);
    rule.extend(last);
    rule
}

/// A counter that ends at the last use of its head, at one of the last, or just not.
fn counter_ends(draw: &mut Draw) -> Case {
    let signature = Signature::any_size(draw);
    let head = draw.below(signature.heads());
    let words = length(draw, WRITTEN_WORDS);
    let rule = if draw.once_in(3) { facts_of(head, words) } else { head_of(draw, &signature, head, words) };
    let mut case = Case::new(Call::Lower, signature.words(), rule);
    let mut after = case.counters.clone();
    // The Rust says how often a head is used; a rule that it refuses goes in as it is.
    if oracle::lower(&case.signature, &case.rule, &mut after).is_ok() {
        let back = draw.pick(&[0, 1, 1, 2, 5]);
        case.counters[head as usize] = COUNTS - after[head as usize].saturating_sub(back);
    }
    case
}

/// Calls of one name each, no two alike, so that there is nothing to merge; then one or two calls of nothing.
fn facts_of(head: u32, words: usize) -> Vec<u32> {
    let calls = (words - 2) / 2;
    let mut facts: Vec<Vec<u32>> = (0..calls).map(|at| vec![call(head, 1), name(at as u32)]).collect();
    facts.resize(words - 1 - calls, vec![call(head, 0)]);
    joined(&facts, &[])
}

/// Actions that are accepted, then one that uses the head once more at its end.
fn head_of(draw: &mut Draw, signature: &Signature, head: u32, words: usize) -> Vec<u32> {
    let last = match draw.below(4) {
        0 => vec![action(EXPRESSION), call(head, 0)],
        1 => vec![action(DELETE), call(head, 0)],
        2 => vec![action(SET), call(head, 1), literal(1), call(head, 0)],
        _ => vec![action(UNION), literal(1), call(head, 0)],
    };
    filled(with_action(written(draw, signature, words - last.len()), &last), words)
}

/// The rule with facts that do nothing, up to so many words.
fn filled(mut rule: Vec<u32>, words: usize) -> Vec<u32> {
    let more = words.saturating_sub(rule.len());
    rule[0] += header(more, 0) - header(0, 0);
    rule.splice(1..1, vec![literal(2); more]);
    rule
}

/// The last name is unbound, or the last let is of a bound name.
fn type_error(draw: &mut Draw) -> Case {
    let signature = Signature::any_size(draw);
    let words = length(draw, WRITTEN_WORDS);
    let stranger = name(NAMES - 1);
    let last = match draw.below(4) {
        0 => vec![action(EXPRESSION), stranger],
        1 => vec![action(UNION), literal(1), stranger],
        2 => vec![action(SET), call(0, 1), stranger, literal(1)],
        _ => vec![action(LET), stranger, literal(1), action(LET), stranger, literal(2)],
    };
    let mut rule = filled(written(draw, &signature, words - last.len()), words - last.len());
    rule[0] += if last.len() == 6 { 2 } else { 1 };
    rule.extend(last);
    Case::new(Call::Lower, signature.words(), rule)
}

/// One of the last words does not fit, or one is missing, or there is one too many.
fn unfit(draw: &mut Draw) -> Case {
    let signature = Signature::any_size(draw);
    let called = draw.pick(&[Call::Lower, Call::Settle, Call::FreeVars]);
    let most = if called == Call::Lower { WRITTEN_WORDS } else { FLAT_WORDS };
    let words = length(draw, most);
    let mut writer = Writer::new(draw, &signature);
    let mut rule = if called == Call::Lower { writer.written(words) } else { writer.flat(words) };
    let last = rule.len() - 1;
    match draw.below(3) {
        0 => rule[0] += 1,
        1 => rule[last - draw.between(0, 4)] = any_word(draw),
        _ => rule[last] = 0,
    }
    Case::new(called, signature.words(), rule)
}

/// The last atom has no terms, or is an equality of any number of terms.
fn flat_fault(draw: &mut Draw) -> Case {
    let signature = Signature::any_size(draw);
    let last = draw.pick(&[call(0, 0), call(signature.heads() - 1, 0), EQUALITY + 1, EQUALITY - 1, EQUALITY]);
    let wide = length(draw, FLAT_WORDS) - 3;
    let terms: Vec<u32> = (0..wide).map(|at| name(at as u32 % 9)).collect();
    let rule = joined(&[[vec![call(0, wide)], terms].concat(), vec![last]], &[]);
    Case::new(draw.pick(&[Call::Settle, Call::FreeVars]), signature.words(), rule)
}
