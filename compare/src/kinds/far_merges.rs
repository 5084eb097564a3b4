//! Long bodies of many different atoms, of which few are alike and stand anywhere: what is alike must be found among
//! hundreds, and a replacement must reach all places of a variable that stands in few.

use super::settling::settle_mostly;
use crate::case::{Call, Case};
use crate::draw::Draw;
use crate::records::{Signature, joined};
use crate::words::{EQUALITY, FLAT_WORDS, UNION, WRITTEN_WORDS, action, call, fresh, literal, name};

/// An atom, or the fact that becomes one.
#[derive(Clone)]
struct Atom {
    head: u32,
    inputs: Vec<u32>,
    output: u32,
}

impl Atom {
    fn fact(self) -> Vec<u32> {
        [vec![EQUALITY, self.output, call(self.head, self.inputs.len())], self.inputs].concat()
    }

    fn flat(self) -> Vec<u32> {
        [vec![call(self.head, self.inputs.len() + 1)], self.inputs, vec![self.output]].concat()
    }
}

pub fn far_merges(draw: &mut Draw) -> Case {
    let signature = Signature::any_size(draw);
    let is_flat = !draw.once_in(3);
    let most = if is_flat { FLAT_WORDS } else { WRITTEN_WORDS };
    let words = if draw.once_in(2) { most } else { draw.between(most / 4, most) };
    let terms = terms(draw, &signature, is_flat);
    let head = if is_flat { vec![vec![action(UNION), terms[0], terms[1]]] } else { Vec::new() };
    let body = body(draw, &signature, &terms, words - 1 - head.concat().len(), is_flat);
    let called = if is_flat { settle_mostly(draw) } else { Call::Lower };
    Case::new(called, signature.words(), joined(&body, &head))
}

/// What atoms are made of: variables, so many that most stand in few atoms, and a few others.
fn terms(draw: &mut Draw, signature: &Signature, is_flat: bool) -> Vec<u32> {
    let variables = draw.pick(&[40, 300, 1_000]);
    let last = signature.heads() - 1;
    let variable = |at: u32| {
        if is_flat && at.is_multiple_of(3) { fresh(at % (last + 1), at) } else { name(signature.globals + at) }
    };
    let others = [literal(0), literal(1), name(0)];
    let mut terms: Vec<u32> = (0..variables).map(variable).chain(others).collect();
    draw.shuffle(&mut terms);
    terms
}

/// Atoms until there is no room: new ones, ones like an earlier one but for their output, and equalities.
fn body(draw: &mut Draw, signature: &Signature, terms: &[u32], room: usize, is_flat: bool) -> Vec<Vec<u32>> {
    let rarely = draw.pick(&[6, 30, 120]);
    let mut atoms: Vec<Atom> = Vec::new();
    let mut body = Vec::new();
    let mut left = room;
    loop {
        let item = if draw.once_in(rarely) {
            vec![EQUALITY, draw.pick(terms), draw.pick(terms)]
        } else {
            let atom = next_atom(draw, signature, terms, &atoms, rarely);
            atoms.push(atom.clone());
            if is_flat { atom.flat() } else { atom.fact() }
        };
        if item.len() > left {
            return body;
        }
        left -= item.len();
        body.push(item);
    }
}

fn next_atom(draw: &mut Draw, signature: &Signature, terms: &[u32], atoms: &[Atom], rarely: u32) -> Atom {
    let output = draw.pick(terms);
    if !atoms.is_empty() && draw.once_in(rarely) {
        let earlier = &atoms[draw.below(atoms.len() as u32) as usize];
        return Atom { output, ..earlier.clone() };
    }
    let inputs = (0..draw.between(1, 3)).map(|_| draw.pick(terms)).collect();
    Atom { head: draw.below(signature.heads()), inputs, output }
}
