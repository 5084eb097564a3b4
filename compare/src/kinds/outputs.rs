//! Outputs too short for their results: every length there is below the longest results, and any below others.

use super::Visit;
use super::flat::flat_limits;
use super::free_rows::free_rows;
use super::growing::growing;
use super::long_heads::long_heads;
use super::turned_back::needed;
use super::written::written_long;
use crate::case::{Call, Case};
use crate::draw::Draw;
use crate::records::{Signature, joined};
use crate::words::{DELETE, EXPRESSION, FLAT_WORDS, WRITTEN_WORDS, action, call, literal, name};
use std::ops::ControlFlow;

/// Outputs of every length up to one more than the result: for rules with long results, up to `size` of them a call.
pub fn short_outputs(size: usize, visit: &mut Visit) -> ControlFlow<()> {
    for share in 1..=size {
        for case in [long_lowered(share), longest_settled(share), longest_row(share)] {
            let needed = needed(&case);
            (0..=needed + 1).try_for_each(|output| visit(Case { output, ..case.clone() }))?;
        }
    }
    most_replacements(SOME / size, visit)
}

/// Hundreds of replacements take time, so of all lengths only one in `step` is tried, and those around the result's.
fn most_replacements(step: usize, visit: &mut Visit) -> ControlFlow<()> {
    let signature = Signature::trial().words();
    let wide = [vec![call(1, WIDEST)], vec![call(2, 0); WIDEST]].concat();
    let atoms: Vec<Vec<u32>> = (1..=ATOMS).map(|number| vec![call(1, 1), name(number as u32)]).collect();
    let cases = [
        // The longest result of lower.
        Case::new(Call::Lower, signature.clone(), joined(&[wide], &[])),
        Case::new(Call::Lower, signature.clone(), joined(&vec![vec![call(1, 0)]; WIDEST + 1], &[])),
        Case::new(Call::Settle, signature, joined(&atoms, &[])),
    ];
    for case in cases {
        let needed = needed(&case);
        let mut lengths = (0..needed - 1).step_by(step).chain(needed - 1..=needed + 1);
        lengths.try_for_each(|output| visit(Case { output, ..case.clone() }))?;
    }
    ControlFlow::Continue(())
}

/// The step between lengths for a `size` of 1.
const SOME: usize = 512;
/// The most arguments of a call in a fact.
const WIDEST: usize = WRITTEN_WORDS - 2;
/// The most atoms of a flat rule.
const ATOMS: usize = (FLAT_WORDS - 1) / 2;

/// `(f (g) (g) .. (g))` in an action, as long as a rule may be, or a share of that.
fn long_lowered(share: usize) -> Case {
    let calls = (WIDEST - 1) / share;
    let action = [vec![action(EXPRESSION), call(1, calls)], vec![call(2, 0); calls]].concat();
    Case::new(Call::Lower, Signature::trial().words(), joined(&[], &[action]))
}

/// Atoms of one head whose outputs clash.
fn longest_settled(share: usize) -> Case {
    let atoms: Vec<Vec<u32>> = (0..ATOMS / share).map(|number| vec![call(1, 1), literal(number as u32)]).collect();
    Case::new(Call::Settle, Signature::trial().words(), joined(&atoms, &[]))
}

/// Names, descending.
fn longest_row(share: usize) -> Case {
    let terms = (FLAT_WORDS - 3) / share;
    let names = (1..=terms).rev().map(|number| name(number as u32));
    let delete = [action(DELETE), call(1, terms)].into_iter().chain(names).collect();
    Case::new(Call::FreeVars, Signature::trial().words(), joined(&[], &[delete]))
}

/// Rules of all sorts whose results are long, with less output than they ask for.
pub fn outputs(draw: &mut Draw) -> Case {
    let make = draw.pick(&[written_long as fn(&mut Draw) -> Case, growing, flat_limits, free_rows, long_heads]);
    let mut case = make(draw);
    let needed = needed(&case);
    let any = draw.between(0, needed);
    case.output = draw.pick(&[any, any, needed.saturating_sub(1), needed]);
    case
}
