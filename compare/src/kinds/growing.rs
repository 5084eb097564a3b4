//! Rules whose results are long: calls of nothing, which grow fourfold, and outputs that clash, which grow twofold.
//!
//! `(f (g) (g) .. (g))` gives 4n - 6 words of n, and flat atoms of one head with a literal each give 2n - 3. None
//! was found that gives more.

use super::settling::settle_mostly;
use crate::case::{Call, Case};
use crate::draw::Draw;
use crate::records::{Signature, joined};
use crate::words::{EQUALITY, EXPRESSION, FLAT_WORDS, SET, UNION, WRITTEN_WORDS, action, call, literal, name};

pub fn growing(draw: &mut Draw) -> Case {
    let signature = Signature::small(draw);
    let full = draw.once_in(50);
    if draw.once_in(2) { written(draw, &signature, full) } else { flat(draw, &signature, full) }
}

fn written(draw: &mut Draw, signature: &Signature, full: bool) -> Case {
    let room = if full { WRITTEN_WORDS - 1 } else { draw.pick(&[8, 20, 60]) };
    let for_facts = draw.pick(&[0, room / 2, room, room]);
    let facts = pieces(draw, signature, for_facts, fact);
    let actions = pieces(draw, signature, room - for_facts, head_action);
    Case::new(Call::Lower, signature.words(), joined(&facts, &actions))
}

fn flat(draw: &mut Draw, signature: &Signature, full: bool) -> Case {
    let room = if full { FLAT_WORDS - 1 } else { draw.pick(&[8, 20, 60]) };
    let atoms = pieces(draw, signature, room, atom);
    Case::new(settle_mostly(draw), signature.words(), joined(&atoms, &[]))
}

/// One piece of a rule by its form, its number and the room that is left.
type Piece = fn(&mut Draw, &Signature, u32, u32, usize) -> Vec<u32>;

/// Forms of pieces that a `Piece` knows.
const FORMS: u32 = 4;

/// Pieces until the next one has no room, half of the time all of one form.
fn pieces(draw: &mut Draw, signature: &Signature, room: usize, piece: Piece) -> Vec<Vec<u32>> {
    let only = if draw.once_in(2) { Some(draw.below(FORMS)) } else { None };
    let mut pieces: Vec<Vec<u32>> = Vec::new();
    let mut left = room;
    loop {
        let form = only.unwrap_or_else(|| draw.below(FORMS));
        let words = piece(draw, signature, form, pieces.len() as u32, left);
        if words.len() > left {
            return pieces;
        }
        left -= words.len();
        pieces.push(words);
    }
}

fn fact(draw: &mut Draw, signature: &Signature, form: u32, number: u32, room: usize) -> Vec<u32> {
    let (f, g) = two_heads(draw, signature);
    match form {
        0 => wide(draw, f, g, room),
        1 => vec![EQUALITY, literal(number), call(f, 0)],
        2 => vec![EQUALITY, call(f, 0), call(g, 0)],
        _ => vec![EQUALITY, literal(number), call(f, 1), call(g, 0)],
    }
}

fn head_action(draw: &mut Draw, signature: &Signature, form: u32, number: u32, room: usize) -> Vec<u32> {
    let (f, g) = two_heads(draw, signature);
    match form {
        0 => [vec![action(EXPRESSION)], wide(draw, f, g, room.saturating_sub(1))].concat(),
        1 => [vec![action(SET)], wide(draw, f, g, room.saturating_sub(2)), vec![literal(number)]].concat(),
        2 => vec![action(UNION), call(f, 0), call(g, 0)],
        _ => vec![action(UNION), name(0), call(f, 1), call(g, 0)],
    }
}

fn atom(draw: &mut Draw, signature: &Signature, form: u32, number: u32, _room: usize) -> Vec<u32> {
    let (f, _) = two_heads(draw, signature);
    match form {
        0 => vec![call(f, 1), literal(number)],
        1 => vec![call(f, 1), name(signature.globals + number)],
        2 => vec![call(f, 2), literal(number % 3), literal(number)],
        _ => vec![EQUALITY, literal(number), name(draw.below(signature.globals + 4))],
    }
}

/// A call of calls of nothing, mostly of as many as there is room for.
fn wide(draw: &mut Draw, f: u32, g: u32, room: usize) -> Vec<u32> {
    let most = room.saturating_sub(1);
    let count = if draw.once_in(3) { draw.between(0, most) } else { most };
    [vec![call(f, count)], vec![call(g, 0); count]].concat()
}

/// Mostly the first two, so that pieces meet.
fn two_heads(draw: &mut Draw, signature: &Signature) -> (u32, u32) {
    let last = signature.heads() - 1;
    (draw.pick(&[0, 0, last]), draw.pick(&[last, last, 0]))
}
