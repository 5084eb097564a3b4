//! Written rules that lean on one thing each.

use super::written::{broad, cascade, links};
use super::{C, F, FIRST, Family, G, GLOBAL, largest, lowered};
use crate::records::joined;
use crate::words::{EQUALITY, EXPRESSION, LET, NAMES, SET, UNION, action, call, literal, name};

pub fn all() -> Vec<Family> {
    vec![
        empty(),
        empty_largest_signature(),
        deep(),
        deep_head(),
        many_heads(),
        literals(),
        literals_twice(),
        apart(),
        one_key(),
        bare(),
        late_call(),
        long_set(),
        repeated(),
        doubled(),
        lets(),
        lets_of_calls(),
        reads(),
        union_as_set(),
        lowered("merges, a tenth", "the cascade in 51 words", 64, cascade(51)),
        lowered("chain, a tenth", "12 times x = f(y)", 64, links(12)),
        lowered("wide, a tenth", "one call of 49 names", 128, broad(49)),
    ]
}

fn empty() -> Family {
    lowered("empty", "the empty rule", 128, joined(&[], &[]))
}

fn empty_largest_signature() -> Family {
    let what = "the empty rule under 4,096 heads";
    Family { name: "empty, largest signature", what, signature: largest().words(), ..empty() }
}

/// Each name under 31 calls, the most there may be.
fn deep() -> Family {
    let facts: Vec<Vec<u32>> = (FIRST..).map(|n| under_calls(name(n))).take(15).collect();
    lowered("deep", "15 facts 32 deep", 16, joined(&facts, &[]))
}

fn deep_head() -> Family {
    let one = [vec![action(EXPRESSION)], under_calls(name(GLOBAL))].concat();
    lowered("deep head", "15 actions 32 deep", 16, joined(&[], &vec![one; 15]))
}

fn under_calls(leaf: u32) -> Vec<u32> {
    [vec![call(F, 1); 31], vec![leaf]].concat()
}

/// Heads spread over all there are.
fn many_heads() -> Family {
    let facts: Vec<Vec<u32>> = (0..511).map(|n| vec![call(n * (NAMES / 511), 0)]).collect();
    let family = lowered("many heads", "511 calls, each of another head of 4,096", 16, joined(&facts, &[]));
    Family { signature: largest().words(), ..family }
}

/// Equalities that stay: each becomes value-eq.
fn literals() -> Family {
    let facts: Vec<Vec<u32>> = (0..170).map(|n| vec![EQUALITY, literal(2 * n), literal(2 * n + 1)]).collect();
    lowered("literals", "170 equalities of literals, all stay", 16, joined(&facts, &[]))
}

/// What they become is alike in pairs, yet there is nothing to replace.
fn literals_twice() -> Family {
    let facts: Vec<Vec<u32>> = (0..170).map(|n| vec![EQUALITY, literal(n % 85), literal(100)]).collect();
    lowered("literals twice", "85 equalities of literals, each there twice", 16, joined(&facts, &[]))
}

fn apart() -> Family {
    let facts: Vec<Vec<u32>> = (FIRST..).map(|n| vec![call(F, 1), name(n)]).take(255).collect();
    lowered("apart", "f(x) for 255 x", 16, joined(&facts, &[]))
}

fn bare() -> Family {
    let facts: Vec<Vec<u32>> = (FIRST..).map(|n| vec![name(n)]).take(511).collect();
    lowered("bare names", "511 names as facts: no atoms", 32, joined(&facts, &[]))
}

/// Names that are written as an atom's, and then once more, since a call comes last.
fn late_call() -> Family {
    let names: Vec<u32> = (FIRST..).map(name).take(508).collect();
    let fact = [vec![call(F, 509)], names, vec![call(F, 0)]].concat();
    lowered("late call", "one call of 508 names and a call", 32, joined(&[fact], &[]))
}

/// Calls that are not alike, though the crate bodies (`buckets.rt`) has one key for all of them.
fn one_key() -> Family {
    let third = |first: u32| {
        (0..=0xffff).find_map(|second: u32| {
            let so_far = first.wrapping_mul(KEY_FACTOR).wrapping_add(second).wrapping_mul(KEY_FACTOR);
            let rest = so_far.wrapping_neg();
            (rest <= 0xffff).then(|| vec![call(F, 3), literal(first), literal(second), literal(rest)])
        })
    };
    let facts: Vec<Vec<u32>> = (0..0x1_0000).filter_map(third).take(127).collect();
    lowered("one key", "127 calls of literals whose keys are the same", 16, joined(&facts, &[]))
}

/// By which a key grows with each word.
const KEY_FACTOR: u32 = 0x9e37_79b1;

fn long_set() -> Family {
    let set = [vec![action(SET), call(F, 508)], vec![name(GLOBAL); 509]].concat();
    lowered("long set", "one set of 508 arguments", 32, joined(&[], &[set]))
}

/// The same expression under other calls, over and over.
fn repeated() -> Family {
    let (x, f) = (name(FIRST), call(F, 1));
    let fact = |n| vec![call(G, 3), f, f, x, f, f, x, name(n)];
    let facts: Vec<Vec<u32>> = (FIRST..).map(fact).take(63).collect();
    lowered("repeated", "g(f(f(x)), f(f(x)), y) for 63 y", 1, joined(&facts, &[]))
}

fn doubled() -> Family {
    let facts: Vec<Vec<u32>> = (0..254).map(|n| vec![call(F, 1), name(FIRST + n % 127)]).collect();
    lowered("doubled", "f(x) twice for 127 x", 4, joined(&facts, &[]))
}

fn lets() -> Family {
    let first = vec![action(LET), name(FIRST), name(GLOBAL)];
    let next = |n| vec![action(LET), name(n + 1), name(n)];
    let actions: Vec<Vec<u32>> = std::iter::once(first).chain((FIRST..).map(next).take(169)).collect();
    lowered("lets", "170 lets, each reads the one before", 16, joined(&[], &actions))
}

fn lets_of_calls() -> Family {
    let first = vec![action(LET), name(FIRST), name(GLOBAL)];
    let next = |n| vec![action(LET), name(n + 1), call(F, 1), name(n)];
    let actions: Vec<Vec<u32>> = std::iter::once(first).chain((FIRST..).map(next).take(126)).collect();
    lowered("lets of calls", "127 lets, each calls with the one before", 16, joined(&[], &actions))
}

/// A fact that binds names, and an action that reads them, the last one first.
fn reads() -> Family {
    let names: Vec<u32> = (FIRST..).map(name).take(253).collect();
    let fact = [vec![call(F, 253)], names.clone()].concat();
    let read = [vec![action(EXPRESSION), call(F, 253)], names.into_iter().rev().collect()].concat();
    lowered("reads", "253 names of a fact, read in an action", 16, joined(&[fact], &[read]))
}

fn union_as_set() -> Family {
    let fact = vec![call(F, 1), name(FIRST)];
    let union = vec![action(UNION), name(FIRST), call(C, 1), name(FIRST)];
    lowered("union as set", "127 unions that become sets", 16, joined(&[fact], &vec![union; 127]))
}
