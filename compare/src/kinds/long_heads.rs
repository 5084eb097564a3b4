//! Rules that are nearly all actions: as many lets, sets, deletes and others as a rule can hold, or few that are very wide.

use crate::case::{Call, Case};
use crate::draw::Draw;
use crate::records::{Signature, joined};
use crate::words::{
    CALL, DELETE, EXPRESSION, FLAT_WORDS, LET, NAMES, PANIC, SET, SUBSUME, UNION, WRITTEN_WORDS, action, call, fresh,
    literal, name,
};

pub fn long_heads(draw: &mut Draw) -> Case {
    let signature = Signature::any_size(draw);
    if draw.once_in(2) {
        let words = full_or_less(draw, WRITTEN_WORDS);
        Case::new(Call::Lower, signature.words(), written(draw, &signature, words))
    } else {
        let words = full_or_less(draw, FLAT_WORDS);
        let called = draw.pick(&[Call::Settle, Call::FreeVars]);
        Case::new(called, signature.words(), flat(draw, &signature, words))
    }
}

fn full_or_less(draw: &mut Draw, most: usize) -> usize {
    if draw.once_in(2) { most } else { draw.between(40, most) }
}

/// As many of these actions behind this body as fit into so many words.
pub fn headed(body: &[Vec<u32>], actions: Vec<Vec<u32>>, words: usize) -> Vec<u32> {
    let mut left = words - 1 - body.concat().len();
    let fit = actions.into_iter().take_while(|action| {
        let fits = action.len() <= left;
        left -= if fits { action.len() } else { 0 };
        fits
    });
    joined(body, &fit.collect::<Vec<_>>())
}

/// A written rule of at most so many words that is accepted while no counter ends.
pub fn written(draw: &mut Draw, signature: &Signature, words: usize) -> Vec<u32> {
    let body = binding(draw, signature, words);
    let mut head = Head::new(draw, signature, &body);
    let actions = head.fill(words, &[LET, SET, DELETE, SUBSUME, UNION, PANIC, EXPRESSION], Head::written);
    headed(&body, actions, words)
}

/// A fact that binds names for the actions to read, none, or an eighth of the words; or a leaf, which binds none.
fn binding(draw: &mut Draw, signature: &Signature, words: usize) -> Vec<Vec<u32>> {
    let names = draw.between(1, words / 8) as u32;
    let called = call(draw.below(signature.heads()), names as usize);
    let fact = [called].into_iter().chain((0..names).map(|at| name(signature.globals + at))).collect();
    match draw.below(3) {
        0 => vec![fact],
        1 => vec![vec![literal(1)]],
        _ => Vec::new(),
    }
}

fn flat(draw: &mut Draw, signature: &Signature, words: usize) -> Vec<u32> {
    let mut head = Head::new(draw, signature, &[]);
    let actions = head.fill(words, &[LET, SET, DELETE, SUBSUME, UNION, PANIC, CALL], Head::flat);
    headed(&[], actions, words)
}

struct Head<'a> {
    draw: &'a mut Draw,
    signature: &'a Signature,
    /// What can be read: literals, globals and bound names.
    readable: Vec<u32>,
    /// Names for lets to bind, the last one next.
    unbound: Vec<u32>,
    /// How many there are under a kind 3 word at most.
    widest: usize,
}

type Make<'a> = fn(&mut Head<'a>, u32, usize) -> Vec<u32>;

impl<'a> Head<'a> {
    fn new(draw: &'a mut Draw, signature: &'a Signature, body: &[Vec<u32>]) -> Head<'a> {
        let bound = body.iter().flatten().copied().filter(|word| word.leading_zeros() == 1);
        let globals = (0..signature.globals).map(name);
        let readable: Vec<u32> = [literal(0), literal(5)].into_iter().chain(globals).chain(bound).collect();
        let mut unbound: Vec<u32> =
            (signature.globals..NAMES).map(name).filter(|name| !readable.contains(name)).collect();
        match draw.below(3) {
            0 => (),
            1 => unbound.reverse(),
            _ => draw.shuffle(&mut unbound),
        }
        let widest = draw.pick(&[0, 0, 1, 4, 40, FLAT_WORDS]);
        Head { draw, signature, readable, unbound, widest }
    }

    /// Actions for at least so many words, half of the time all of one code.
    fn fill(&mut self, words: usize, codes: &[u32], make: Make<'a>) -> Vec<Vec<u32>> {
        let only = self.draw.pick(codes);
        let alike = self.draw.once_in(2);
        let mut actions: Vec<Vec<u32>> = Vec::new();
        let mut left = words;
        while left > 1 {
            let code = if alike { only } else { self.draw.pick(codes) };
            let action = make(self, code, left);
            left = left.saturating_sub(action.len());
            actions.push(action);
        }
        actions
    }

    fn written(&mut self, code: u32, room: usize) -> Vec<u32> {
        let rest = match code {
            LET => self.written_let(room),
            SET => [self.calling(room, 2), self.read(1)].concat(),
            DELETE | SUBSUME => self.calling(room, 1),
            UNION => self.read(2),
            PANIC => vec![literal(9)],
            _ if self.draw.once_in(2) => self.calling(room, 1),
            _ => self.read(1),
        };
        [vec![action(code)], rest].concat()
    }

    /// What it binds is read by those behind it.
    fn written_let(&mut self, room: usize) -> Vec<u32> {
        let value = if self.widest > 1 { self.calling(room, 2) } else { self.read(1) };
        let target = self.unbound.pop().unwrap_or(name(0));
        self.readable.push(target);
        [vec![target], value].concat()
    }

    /// A kind 3 word and what is under it, with room left for so many words besides.
    fn calling(&mut self, room: usize, besides: usize) -> Vec<u32> {
        let most = self.widest.min(room.saturating_sub(1 + besides));
        let count = if self.draw.once_in(4) { self.draw.between(0, most) } else { most };
        [vec![call(self.draw.below(self.signature.heads()), count)], self.read(count)].concat()
    }

    fn read(&mut self, count: usize) -> Vec<u32> {
        (0..count).map(|_| self.draw.pick(&self.readable)).collect()
    }

    /// Flat actions ask nobody whether a name is bound.
    fn flat(&mut self, code: u32, room: usize) -> Vec<u32> {
        let target = self.target();
        self.readable.push(target);
        let rest = match code {
            LET => [vec![target], self.read(1)].concat(),
            SET => [self.calling(room, 2), self.read(1)].concat(),
            DELETE | SUBSUME => self.calling(room, 1),
            UNION => self.read(2),
            PANIC => vec![literal(9)],
            _ => [vec![target], self.calling(room, 2)].concat(),
        };
        [vec![action(code)], rest].concat()
    }

    fn target(&mut self) -> u32 {
        let count = self.unbound.len() as u32;
        let any = self.draw.pick(&self.unbound);
        self.draw.pick(&[fresh(0, count % 7), fresh(self.signature.heads() - 1, count), any, name(0)])
    }
}
