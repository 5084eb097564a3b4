//! Written rules: of every length, around each limit, and with counters near their end.

use crate::case::{Call, Case};
use crate::draw::Draw;
use crate::records::{Signature, Writer, any_word, joined};
use crate::words::{
    CALLS, COUNTS, DELETE, EQUALITY, EXPRESSION, LET, NAMES, SET, UNION, WRITTEN_WORDS, action, call, header, literal,
    name,
};

pub fn written(draw: &mut Draw) -> Case {
    let longest = draw.pick(&[12, 30, 30, 50, 80]);
    written_of(draw, 1, longest)
}

pub fn written_long(draw: &mut Draw) -> Case {
    written_of(draw, 60, WRITTEN_WORDS)
}

pub fn written_of(draw: &mut Draw, shortest: usize, longest: usize) -> Case {
    let signature = Signature::small(draw);
    let length = draw.between(shortest, longest);
    let rule = Writer::new(draw, &signature).written(length);
    Case::new(Call::Lower, signature.words(), rule)
}

/// One limit a case: length, depth, names, literals, counts under a head.
pub fn written_limits(draw: &mut Draw) -> Case {
    let mut signature = Signature::small(draw);
    let rule = match draw.below(8) {
        0 => {
            let length = draw.between(WRITTEN_WORDS - 6, WRITTEN_WORDS + 3);
            Writer::new(draw, &signature).written(length)
        }
        1 => vec![header(draw.between(0, 2), 0); draw.between(0, 3)],
        2..=4 => deep(draw, &signature),
        5 => {
            // Some of these names are globals, or all, or none.
            signature.globals = draw.pick(&[0, NAMES - 8, NAMES - 1, NAMES]);
            vec![header(1, 1), EQUALITY, far_name(draw), far_name(draw), action(EXPRESSION), far_name(draw)]
        }
        6 => vec![header(2, 0), far_literal(draw), EQUALITY, name(5), far_literal(draw)],
        _ => wide(draw, &signature),
    };
    Case::new(Call::Lower, signature.words(), rule)
}

/// An expression about as deep as may be, wherever one can stand.
fn deep(draw: &mut Draw, signature: &Signature) -> Vec<u32> {
    let head = draw.below(signature.heads());
    let expr = deep_expr(draw, head);
    let bound = vec![EQUALITY, name(3), name(4)];
    match draw.below(7) {
        0 => joined(&[expr], &[]),
        1 => joined(&[[vec![EQUALITY, name(3)], expr].concat()], &[]),
        2 => joined(&[bound], &[[vec![action(EXPRESSION)], expr].concat()]),
        3 => joined(&[bound], &[[vec![action(SET), call(head, 1)], expr, vec![name(3)]].concat()]),
        4 => joined(&[bound], &[[vec![action(DELETE), call(head, 1)], expr].concat()]),
        5 => joined(&[bound], &[[vec![action(UNION), name(3)], expr].concat()]),
        _ => joined(&[bound], &[[vec![action(LET), name(9)], expr].concat()]),
    }
}

/// Calls inside calls. One of them may have a name before or behind the deeper argument.
fn deep_expr(draw: &mut Draw, head: u32) -> Vec<u32> {
    let innermost = match draw.below(5) {
        0 => call(head, 0),
        1 => literal(1),
        2 => any_word(draw),
        _ => name(draw.below(5)),
    };
    let calls = draw.between(CALLS - 3, CALLS + 2);
    let mut expr = [vec![call(head, 1); calls], vec![innermost]].concat();
    if draw.once_in(2) {
        let at = draw.between(0, calls - 1);
        expr[at] = call(head, 2);
        let beside = if draw.once_in(2) { at + 1 } else { expr.len() };
        expr.insert(beside, name(3));
    }
    expr
}

/// One call that takes about all the words there may be, its count right or a little off.
fn wide(draw: &mut Draw, signature: &Signature) -> Vec<u32> {
    let count = draw.between(WRITTEN_WORDS - 4, WRITTEN_WORDS);
    let said = count + draw.pick(&[0, 0, 0, 1, 2]) - draw.pick(&[0, 0, 0, 1]);
    let head = draw.below(signature.heads());
    let arguments = (0..count).map(|_| name(draw.below(3)));
    [header(1, 0), call(head, said)].into_iter().chain(arguments).collect()
}

pub fn far_name(draw: &mut Draw) -> u32 {
    name(draw.pick(&[0, 1, NAMES - 9, NAMES - 8, NAMES - 2, NAMES - 1, NAMES]))
}

pub fn far_literal(draw: &mut Draw) -> u32 {
    literal(draw.pick(&[0, 1, COUNTS - 2, COUNTS - 1, COUNTS]))
}

/// The end is met in a fact, in an action, after a type error, before one, or not at all.
pub fn counters(draw: &mut Draw) -> Case {
    let mut case = written_of(draw, 4, 60);
    for counter in &mut case.counters {
        *counter = match draw.below(6) {
            0 => 0,
            1 => COUNTS,
            2 => draw.pick(&[COUNTS + 1, 2 * COUNTS - 1, 2 * COUNTS, u32::MAX - 1, u32::MAX]),
            _ => COUNTS - 1 - draw.below(30),
        };
    }
    // Entries past the last head are nobody's.
    for _ in 0..draw.pick(&[0, 0, 1, 3]) {
        case.counters.push(draw.word());
    }
    case
}
