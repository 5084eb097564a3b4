//! What settling does over and over: merges that bring on merges, value-eq, and globals beside variables.

use crate::case::{Call, Case};
use crate::draw::Draw;
use crate::records::{Signature, joined};
use crate::words::{
    CALL, EQUALITY, EXPRESSION, FLAT_WORDS, LET, SET, UNION, WRITTEN_WORDS, action, call, literal, name,
};

/// Chains of calls over one beginning: what one pass merges makes the next links alike. Links that are no variables leave
/// value-eq atoms behind.
pub fn cascades(draw: &mut Draw) -> Case {
    let signature = Signature::small(draw);
    let longest = if draw.once_in(1_000) { 170 } else { draw.pick(&[3, 6, 12]) };
    let chains: Vec<Vec<u32>> =
        (0..draw.between(2, 4)).map(|chain| chain_of(draw, &signature, chain, longest)).collect();
    if draw.once_in(2) { written_cascade(draw, &signature, &chains) } else { flat_cascade(draw, &signature, &chains) }
}

/// The terms that a chain links. All chains begin with the same one. In a broken chain some are no variables.
fn chain_of(draw: &mut Draw, signature: &Signature, chain: usize, longest: usize) -> Vec<u32> {
    let broken = draw.once_in(3);
    let first = signature.globals;
    let own = first + 1 + (chain * longest) as u32;
    let links = draw.between(1, longest) as u32;
    let mut link = |at| {
        let odd = broken && draw.once_in(6);
        if odd { draw.pick(&[literal(0), literal(1), literal(2), name(0), name(1)]) } else { name(own + at) }
    };
    std::iter::once(name(first)).chain((0..links).map(&mut link)).collect()
}

fn written_cascade(draw: &mut Draw, signature: &Signature, chains: &[Vec<u32>]) -> Case {
    let head = draw.below(signature.heads());
    // A deep link is a chain of fresh variables in itself.
    let depth = if draw.once_in(40) { 30 } else { draw.pick(&[1, 1, 1, 2, 4]) };
    let mut facts: Vec<Vec<u32>> = links(chains)
        .map(|(from, to)| {
            let called = [vec![call(head, 1); depth], vec![from]].concat();
            if draw.once_in(6) {
                [vec![EQUALITY], called, vec![to]].concat()
            } else {
                [vec![EQUALITY, to], called].concat()
            }
        })
        .collect();
    order(draw, &mut facts);
    let read = chains[0][1];
    let actions = [vec![action(EXPRESSION), call(head, 1), read], vec![action(SET), call(head, 1), read, read]];
    let rule = fitted(facts, &actions[..draw.between(0, 2)], WRITTEN_WORDS);
    Case::new(Call::Lower, signature.words(), rule)
}

fn flat_cascade(draw: &mut Draw, signature: &Signature, chains: &[Vec<u32>]) -> Case {
    let head = draw.below(signature.heads());
    let key = if draw.once_in(3) { vec![literal(7)] } else { Vec::new() };
    let atom = |(from, to)| [vec![call(head, key.len() + 2)], key.clone(), vec![from, to]].concat();
    let mut atoms: Vec<Vec<u32>> = links(chains).map(atom).collect();
    order(draw, &mut atoms);
    let actions = [vec![action(UNION), chains[0][1], chains[1][1]]];
    let rule = fitted(atoms, &actions[..draw.between(0, 1)], FLAT_WORDS);
    Case::new(settle_mostly(draw), signature.words(), rule)
}

fn links(chains: &[Vec<u32>]) -> impl Iterator<Item = (u32, u32)> + '_ {
    chains.iter().flat_map(|chain| chain.windows(2)).map(|link| (link[0], link[1]))
}

/// Forwards, backwards, or in no order: passes depend on it.
pub fn order(draw: &mut Draw, list: &mut [Vec<u32>]) {
    match draw.below(3) {
        0 => (),
        1 => list.reverse(),
        _ => draw.shuffle(list),
    }
}

/// As many of the facts or atoms as a rule has room for.
pub fn fitted(mut body: Vec<Vec<u32>>, actions: &[Vec<u32>], longest: usize) -> Vec<u32> {
    while joined(&body, actions).len() > longest && body.pop().is_some() {}
    joined(&body, actions)
}

pub fn settle_mostly(draw: &mut Draw) -> Call {
    if draw.once_in(5) { Call::FreeVars } else { Call::Settle }
}

/// Few terms, most of them no variables, under the head that settling uses itself.
pub fn value_eq(draw: &mut Draw) -> Case {
    let signature = Signature { globals: 2, ..Signature::small(draw) };
    let lower = draw.once_in(2);
    let item = if lower { value_eq_fact } else { value_eq_atom };
    let body: Vec<Vec<u32>> = (0..draw.between(1, 7)).map(|_| item(draw, signature.value_eq)).collect();
    let call = if lower { Call::Lower } else { settle_mostly(draw) };
    Case::new(call, signature.words(), joined(&body, &[]))
}

fn value_eq_fact(draw: &mut Draw, head: u32) -> Vec<u32> {
    let [a, b, c] = few_terms(draw);
    match draw.below(4) {
        0 => vec![EQUALITY, a, b],
        1 => vec![call(head, 2), a, b],
        2 => vec![EQUALITY, c, call(head, 2), a, b],
        _ => vec![EQUALITY, call(head, 2), a, b, call(head, 2), a, c],
    }
}

/// Not only with two inputs, and not only with Unit for its output.
fn value_eq_atom(draw: &mut Draw, head: u32) -> Vec<u32> {
    let [a, b, c] = few_terms(draw);
    match draw.below(4) {
        0 => vec![EQUALITY, a, b],
        1 => vec![call(head, 2), a, b],
        2 => vec![call(head, 3), a, b, literal(0)],
        _ => vec![call(head, 3), a, b, c],
    }
}

/// Names 0 and 1 are globals.
fn few_terms(draw: &mut Draw) -> [u32; 3] {
    let terms = [literal(0), literal(1), literal(2), name(0), name(1), name(2), name(3)];
    [draw.pick(&terms), draw.pick(&terms), draw.pick(&terms)]
}

/// Lets of globals, of names beside them, and reads of both afterwards.
pub fn globals(draw: &mut Draw) -> Case {
    let signature = Signature { globals: 1 + draw.below(3), ..Signature::small(draw) };
    let head = draw.below(signature.heads());
    let (call, action) = match draw.below(6) {
        0 => (Call::Settle, core_action_on_globals as fn(&mut Draw, u32) -> Vec<u32>),
        1 => (Call::FreeVars, core_action_on_globals as _),
        _ => (Call::Lower, action_on_globals as _),
    };
    let body = [vec![EQUALITY, one_of_five(draw), one_of_five(draw)], vec![EQUALITY, one_of_five(draw), literal(1)]];
    let actions: Vec<Vec<u32>> = (0..draw.between(1, 5)).map(|_| action(draw, head)).collect();
    let rule = joined(&body[..draw.between(0, 2)], &actions);
    Case::new(call, signature.words(), rule)
}

fn action_on_globals(draw: &mut Draw, head: u32) -> Vec<u32> {
    let (a, b) = (one_of_five(draw), one_of_five(draw));
    match draw.below(6) {
        0 | 1 => vec![action(LET), a, b],
        2 => vec![action(LET), a, call(head, 1), b],
        3 => vec![action(UNION), a, call(head, 1), b],
        4 => vec![action(EXPRESSION), call(head, 2), a, b],
        _ => vec![action(SET), call(head, 1), a, b],
    }
}

fn core_action_on_globals(draw: &mut Draw, head: u32) -> Vec<u32> {
    let (a, b) = (one_of_five(draw), one_of_five(draw));
    match draw.below(5) {
        0 | 1 => vec![action(LET), a, b],
        2 => vec![action(CALL), a, call(head, 1), b],
        3 => vec![action(UNION), a, b],
        _ => vec![action(SET), call(head, 1), a, b],
    }
}

/// Globals and variables are about as likely.
fn one_of_five(draw: &mut Draw) -> u32 {
    name(draw.below(5))
}
