//! Flat heads that read very many variables: up to 1,021 in one row of free variables.
//!
//! How a row is put in order depends on the order in which it is read, and a mistake there may show in long rows alone.

use super::long_heads::headed;
use crate::case::{Call, Case};
use crate::draw::Draw;
use crate::records::Signature;
use crate::words::{
    CALL, COUNTS, DELETE, FLAT_WORDS, LET, NAMES, SET, SUBSUME, UNION, action, call, fresh, literal, name,
};

/// Words of a flat rule of one action that are not its terms: header, action word and kind 3 word.
const AROUND: usize = 3;

pub fn free_rows(draw: &mut Draw) -> Case {
    let mut signature = Signature::any_size(draw);
    let words = if draw.once_in(2) { FLAT_WORDS } else { draw.between(24, FLAT_WORDS) };
    let row = row(draw, &signature, words - AROUND);
    let actions = match draw.below(4) {
        0 => vec![reading(draw, &signature, &row)],
        1 => row.chunks_exact(2).map(|pair| [&[action(UNION)], pair].concat()).collect(),
        _ => with_targets(draw, &signature, &row),
    };
    let called = if draw.once_in(8) { Call::Settle } else { Call::FreeVars };
    if draw.once_in(8) {
        // Some of the names become globals, which are not free.
        signature.globals = draw.below(NAMES + 1);
    }
    Case::new(called, signature.words(), headed(&[], actions, words))
}

/// So many variables in an order of their own. Mostly no two are the same.
fn row(draw: &mut Draw, signature: &Signature, count: usize) -> Vec<u32> {
    let mut row = variables(draw, signature, count as u32);
    row.sort_unstable();
    if draw.once_in(6) {
        let few = draw.between(1, count);
        row = (0..count).map(|_| draw.pick(&row[..few])).collect();
    }
    put_in_order(draw, &mut row);
    row
}

/// Different ones: names, fresh variables, or some of each, side by side or apart.
fn variables(draw: &mut Draw, signature: &Signature, count: u32) -> Vec<u32> {
    let some = draw.below(count + 1);
    let names = draw.pick(&[0, some, count]);
    let apart = 1 + draw.below(3);
    let last_start = NAMES - names * apart;
    let any_start = signature.globals + draw.below(last_start - signature.globals + 1);
    let start = draw.pick(&[signature.globals, any_start, last_start]);
    let heads = signature.heads();
    let (first, step) = draw.pick(&[(0, 1), (7, 3), (0, 60), (COUNTS - count, 1)]);
    let fresh_ones = (0..count - names).map(|at| fresh(at % heads, first + at / heads * step));
    (0..names).map(|at| name(start + at * apart)).chain(fresh_ones).collect()
}

/// The row is ascending when it comes here, and is left so, or turned round, or mixed; or all but two are in order.
fn put_in_order(draw: &mut Draw, row: &mut [u32]) {
    match draw.below(6) {
        0 => (),
        1 => row.reverse(),
        2 | 3 => draw.shuffle(row),
        4 => row.rotate_left(draw.between(0, row.len() - 1)),
        _ => {
            let last = row.len() - 2;
            let any = draw.between(0, last);
            let at = draw.pick(&[0, any, last]);
            row.swap(at, at + 1);
        }
    }
}

/// One action that reads all of them.
fn reading(draw: &mut Draw, signature: &Signature, terms: &[u32]) -> Vec<u32> {
    let code = draw.pick(&[SET, DELETE, SUBSUME]);
    // The last term of a set is its value, which its count leaves out.
    let counted = if code == SET { terms.len() - 1 } else { terms.len() };
    [&[action(code), call(draw.below(signature.heads()), counted)], terms].concat()
}

/// Actions that read some of them each, with lets and calls between.
fn with_targets(draw: &mut Draw, signature: &Signature, row: &[u32]) -> Vec<Vec<u32>> {
    let longest = draw.pick(&[3, 12, 60, 300]);
    let mut actions = Vec::new();
    let mut rest = row;
    while !rest.is_empty() {
        let (now, later) = rest.split_at(draw.between(1, longest).min(rest.len()));
        actions.push(reading(draw, signature, now));
        actions.push(targeting(draw, signature, row));
        rest = later;
    }
    actions
}

/// Its target may be read before it, behind it, by itself, or not at all.
fn targeting(draw: &mut Draw, signature: &Signature, row: &[u32]) -> Vec<u32> {
    let [of_row, another, third] = std::array::from_fn(|_| draw.pick(row));
    let target = draw.pick(&[of_row, of_row, name(0), name(NAMES - 1), fresh(0, COUNTS - 1)]);
    let term = draw.pick(&[another, target, literal(1), name(0)]);
    let head = draw.below(signature.heads());
    match draw.below(3) {
        0 => vec![action(LET), target, term],
        1 => vec![action(CALL), target, call(head, 0)],
        _ => vec![action(CALL), target, call(head, 2), term, third],
    }
}
