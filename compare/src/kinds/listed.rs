//! Cases that are listed: all of a size, and 01's own.

use super::Visit;
use crate::case::{Call, Case, Five};
use crate::grammar::Alphabet;
use crate::records::Signature;
use crate::words::{
    CALL, CALLS, COUNTS, DELETE, EQUALITY, EXPRESSION, LET, PANIC, SCRATCH_WORDS, SET, UNION, action, call, fresh,
    header, literal, name, record, signature_word,
};
use std::ops::ControlFlow;

/// P1 to P11; then, for what they leave out, a record for each number that a record can have.
const TRIALS: &[(Call, &str)] = &[
    (
        Call::Lower,
        "04002001 08000002 40000002 10010001 40000001 08000002 40000003 10010001 40000001 02000002 10030001 40000001
        40000003",
    ),
    (Call::Lower, "04000000"),
    (Call::Lower, "04001000 08000002 20000001 20000002"),
    (Call::Lower, "04001000 08000002 20000001 20000001"),
    (Call::Lower, "04001000 08000002 40000001 40000000"),
    (Call::Lower, "04001000 08000002 20000001 40000001"),
    (Call::Lower, "04001000 08000002 40000001 40000002"),
    (Call::Lower, "04001001 40000001 02000008 40000001"),
    (Call::Lower, "04001001 08000002 40000001 40000001 02000001 40000001 40000009"),
    (Call::Lower, "04000001 02000005 40000001 10020001 40000002"),
    (Call::Lower, "04002000 08000002 20000001 10010001 40000001 08000002 20000002 10010001 40000001"),
    (Call::Lower, ""),
    (Call::Lower, "04001000"),
    (Call::Lower, "04000000 04000000"),
    (Call::Settle, "04002000 10000003 20000001 20000002 20000001 10000003 20000001 20000002 20000002"),
    (Call::Settle, "04001000 10010000"),
    (Call::Settle, "04001000 10040000"),
    (Call::Settle, "04001000 0fffffff"),
    (
        Call::FreeVars,
        "04000003 02000007 40000002 10010001 80010000 02000005 40000002 40000003 02000001 40000003 40000003",
    ),
    (Call::FreeVars, "04001000 08000003"),
];

/// `size` has no meaning here: there are only these.
pub fn trials(_size: usize, visit: &mut Visit) -> ControlFlow<()> {
    let on = Signature::trial();
    let off = Signature { union_to_set: false, ..Signature::trial() };
    for signature in [on, off] {
        for &(call, rule) in TRIALS {
            visit(Case::new(call, signature.words(), record(rule)))?;
        }
        lent(&Case::new(Call::Lower, signature.words(), record(TRIALS[0].1)), visit)?;
        last_count(&signature, visit)?;
        deepest(&signature, visit)?;
    }
    visit(Case::new(Call::Lower, Vec::new(), Vec::new()))
}

/// P1 with just enough of everything, and with too little of each.
fn lent(p1: &Case, visit: &mut Visit) -> ControlFlow<()> {
    visit(Case { output: 17, ..p1.clone() })?;
    visit(Case { output: 16, ..p1.clone() })?;
    visit(Case { counters: vec![0; 3], ..p1.clone() })?;
    visit(Case { scratch: SCRATCH_WORDS - 1, ..p1.clone() })?;
    visit(Case { ragged: Five { rule: 1, ..Five::default() }, ..p1.clone() })
}

/// P12.
fn last_count(signature: &Signature, visit: &mut Visit) -> ControlFlow<()> {
    let p12 = Case::new(Call::Lower, signature.words(), vec![header(1, 0), call(1, 0)]);
    for counter in [COUNTS - 1, COUNTS, u32::MAX] {
        visit(Case { counters: vec![0, counter, 0, 0], ..p12.clone() })?;
    }
    ControlFlow::Continue(())
}

/// P13.
fn deepest(signature: &Signature, visit: &mut Visit) -> ControlFlow<()> {
    for calls in [CALLS - 1, CALLS] {
        let rule = [vec![header(1, 0)], vec![call(1, 1); calls], vec![name(1)]].concat();
        visit(Case::new(Call::Lower, signature.words(), rule))?;
    }
    ControlFlow::Continue(())
}

/// All rules of up to `size` words. The flag asks about unions alone, so rules with one come twice.
pub fn short_written(size: usize, visit: &mut Visit) -> ControlFlow<()> {
    let on = Signature::trial().words();
    let off = Signature { union_to_set: false, ..Signature::trial() }.words();
    let alphabet = Alphabet::written();
    for length in 1..=size {
        alphabet.each(length, &mut |rule| {
            visit(Case::new(Call::Lower, on.clone(), rule.to_vec()))?;
            if rule.contains(&action(UNION)) {
                visit(Case::new(Call::Lower, off.clone(), rule.to_vec()))?;
            }
            ControlFlow::Continue(())
        })?;
    }
    ControlFlow::Continue(())
}

/// All rules of up to `size` words, settled, and their free variables.
pub fn short_flat(size: usize, visit: &mut Visit) -> ControlFlow<()> {
    let signature = Signature::trial().words();
    let alphabet = Alphabet::flat();
    for length in 1..=size {
        alphabet.each(length, &mut |rule| {
            visit(Case::new(Call::Settle, signature.clone(), rule.to_vec()))?;
            visit(Case::new(Call::FreeVars, signature.clone(), rule.to_vec()))
        })?;
    }
    ControlFlow::Continue(())
}

/// All lists of up to `size` words, those of one word and more beginning with a header or a name, given to each call.
pub fn short_any(size: usize, visit: &mut Visit) -> ControlFlow<()> {
    let signature = Signature::trial().words();
    let firsts = [header(0, 0), header(1, 0), header(0, 1), header(1, 1), header(2, 0), name(0)];
    let mut others = vec![EQUALITY, EQUALITY + 1, name(0), name(1), literal(0), fresh(1, 0), signature_word(0), 0];
    others.extend([call(1, 0), call(1, 1), call(2, 2), call(4, 0)]);
    others.extend([LET, SET, DELETE, UNION, PANIC, CALL, EXPRESSION].map(action));
    for length in 0..=size {
        each_list(&mut Vec::new(), [&firsts, &others], length, &mut |rule| {
            for call in [Call::Lower, Call::Settle, Call::FreeVars] {
                visit(Case::new(call, signature.clone(), rule.to_vec()))?;
            }
            ControlFlow::Continue(())
        })?;
    }
    ControlFlow::Continue(())
}

/// All lists of so many words that begin with `list`: what may stand first, and what may follow.
fn each_list(
    list: &mut Vec<u32>,
    words: [&[u32]; 2],
    length: usize,
    visit: &mut dyn FnMut(&[u32]) -> ControlFlow<()>,
) -> ControlFlow<()> {
    if list.len() == length {
        return visit(list);
    }
    for &word in words[list.len().min(1)] {
        list.push(word);
        each_list(list, words, length, visit)?;
        list.pop();
    }
    ControlFlow::Continue(())
}
