//! Flat rules, drawn or made by lowering, for settling and for free variables.

use super::written::{far_literal, far_name, written_of};
use crate::case::{Call, Case};
use crate::draw::Draw;
use crate::records::{Signature, Writer, joined};
use crate::words::{CALL, COUNTS, EQUALITY, FLAT_WORDS, LET, NAMES, UNION, action, call, fresh, header, name};

pub fn flat(draw: &mut Draw) -> Case {
    let longest = draw.pick(&[12, 30, 60, 100]);
    flat_of(draw, 1, longest)
}

fn flat_of(draw: &mut Draw, shortest: usize, longest: usize) -> Case {
    let signature = Signature::small(draw);
    let length = draw.between(shortest, longest);
    let rule = Writer::new(draw, &signature).flat(length);
    Case::new(draw.pick(&[Call::Settle, Call::Settle, Call::FreeVars]), signature.words(), rule)
}

pub fn flat_limits(draw: &mut Draw) -> Case {
    match draw.below(4) {
        0 => flat_of(draw, 80, FLAT_WORDS),
        1 => flat_of(draw, FLAT_WORDS - 6, FLAT_WORDS + 4),
        2 => {
            let rule = vec![header(draw.between(0, 1), 0); draw.between(0, 2)];
            Case::new(either(draw), Signature::small(draw).words(), rule)
        }
        _ => far_flat(draw),
    }
}

fn either(draw: &mut Draw) -> Call {
    draw.pick(&[Call::Settle, Call::FreeVars])
}

/// Words at the ends of their ranges: heads of atoms and of fresh variables, counts, names, literals.
pub fn far_flat(draw: &mut Draw) -> Case {
    let signature = Signature::small(draw);
    let last = signature.heads() - 1;
    let head = draw.pick(&[0, last, last, last + 1, NAMES - 1]);
    let [a, b, c, d] = std::array::from_fn(|_| far_term(draw, last));
    let rule = match draw.below(5) {
        0 => joined(&[vec![call(head, 2), a, b]], &[vec![action(UNION), c, d]]),
        1 => joined(&[vec![EQUALITY, a, b], vec![call(head, 0)]], &[]),
        2 => joined(&[vec![EQUALITY - 2 + draw.below(5), a, b]], &[]),
        3 => joined(&[], &[vec![action(CALL), a, call(head, 1), b], vec![action(LET), c, d]]),
        _ => joined(&[], &[vec![action(draw.below(10)), a, b]]),
    };
    Case::new(either(draw), signature.words(), rule)
}

fn far_term(draw: &mut Draw, last_head: u32) -> u32 {
    match draw.below(5) {
        0 => fresh(draw.pick(&[0, last_head, last_head + 1, NAMES - 1]), draw.pick(&[0, COUNTS - 1])),
        1 => far_literal(draw),
        2 => far_name(draw),
        _ => name(draw.below(6)),
    }
}

/// What lowering makes of a written rule is a flat rule, before settling and after it.
pub fn lowered(draw: &mut Draw) -> Case {
    let mut case = written_of(draw, 1, 90);
    let flat = if draw.once_in(3) {
        oracle::lower(&case.signature, &case.rule, &mut case.counters).map(|lowered| lowered.words)
    } else {
        oracle::to_core_rule(&case.signature, &case.rule, &case.counters)
    };
    // A refused rule goes in as it is: as a flat rule it has mistakes of a new kind.
    Case::new(either(draw), case.signature, flat.unwrap_or(case.rule))
}
