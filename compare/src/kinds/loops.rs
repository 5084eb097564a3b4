//! Chains that lead back to their beginning: each pass merges one link, and only that makes the next two alike. None was
//! found with more passes: two chains beside each other, as in `settling`, take two atoms a pass, and these take one. So
//! do chains of value-eq atoms, whose atoms are longer.

use super::settling::{fitted, order, settle_mostly};
use crate::case::{Call, Case};
use crate::draw::Draw;
use crate::records::{Signature, joined};
use crate::words::{CALLS, EQUALITY, FLAT_WORDS, NAMES, UNION, WRITTEN_WORDS, action, call, literal, name};

/// Words of a written rule's loop at its beginning: `(= x (f x))`.
const LOOP: usize = 4;
/// The most words that a link has: `(= y (f (f .. (f x))))`, as deep as may be.
const LINK: usize = CALLS + 2;

pub fn loops(draw: &mut Draw) -> Case {
    let signature = Signature::small(draw);
    let full = draw.once_in(8);
    match draw.below(5) {
        0 | 1 => written(draw, &signature, full),
        2 | 3 => flat(draw, &signature, full),
        _ => value_eq_chain(draw, signature, full),
    }
}

/// Links of calls inside calls, each from the name at which the one before it ends.
fn written(draw: &mut Draw, signature: &Signature, full: bool) -> Case {
    let head = draw.below(signature.heads());
    let any = draw.between(40, 250);
    let mut left = if full { WRITTEN_WORDS } else { any } - 1 - LOOP;
    let x = |number| name(signature.globals + number);
    let mut facts = vec![vec![EQUALITY, x(0), call(head, 1), x(0)]];
    let mut links = 0;
    while left > LINK {
        facts.push([vec![EQUALITY, x(links + 1)], vec![call(head, 1); CALLS - 1], vec![x(links)]].concat());
        links += 1;
        left -= LINK;
    }
    // The last one's end needs no name.
    facts.push([vec![call(head, 1); left.min(CALLS) - 1], vec![x(links)]].concat());
    order_of(draw, full, &mut facts);
    Case::new(Call::Lower, signature.words(), joined(&facts, &[]))
}

/// Atoms of one input each. A few links may be no variables, and leave value-eq atoms behind.
fn flat(draw: &mut Draw, signature: &Signature, full: bool) -> Case {
    let head = draw.below(signature.heads());
    let any = draw.between(10, 150) as u32;
    let links = if full { (FLAT_WORDS as u32 - 1) / 3 } else { any };
    let broken = !full && draw.once_in(3);
    let mut terms: Vec<u32> = (0..links).map(|at| name(signature.globals + at)).collect();
    for term in &mut terms[1..] {
        if broken && draw.once_in(12) {
            *term = draw.pick(&[literal(0), literal(1), name(0)]);
        }
    }
    let back = vec![call(head, 2), terms[0], terms[0]];
    let mut atoms: Vec<Vec<u32>> =
        [back].into_iter().chain(terms.windows(2).map(|link| vec![call(head, 2), link[0], link[1]])).collect();
    order_of(draw, full, &mut atoms);
    let actions = [vec![action(UNION), terms[0], terms[terms.len() - 1]]];
    let called = if full { Call::Settle } else { settle_mostly(draw) };
    Case::new(called, signature.words(), fitted(atoms, &actions[..usize::from(!full)], FLAT_WORDS))
}

/// Value-eq atoms, each like the one that settling adds for the clash before it: nothing is replaced, and there is one pass
/// more than there are atoms, which is as many as there can be.
fn value_eq_chain(draw: &mut Draw, mut signature: Signature, full: bool) -> Case {
    let lower = draw.once_in(2);
    let most = if lower { (WRITTEN_WORDS - 1) / 5 } else { (FLAT_WORDS - 1) / 4 } as u32;
    let links = if full { most } else { draw.between(2, most as usize) as u32 };
    // Unit is a literal; half of the others may be globals.
    let globals = draw.once_in(2);
    if globals {
        signature.globals = NAMES;
    }
    let term = |at: u32| if globals && at % 2 == 1 { name(at) } else { literal(at) };
    let mut body: Vec<Vec<u32>> = (0..links)
        .map(|at| {
            let [left, right, output] = chained(at).map(term);
            if lower {
                vec![EQUALITY, output, call(signature.value_eq, 2), left, right]
            } else {
                vec![call(signature.value_eq, 3), left, right, output]
            }
        })
        .collect();
    order_of(draw, full, &mut body);
    Case::new(if lower { Call::Lower } else { Call::Settle }, signature.words(), joined(&body, &[]))
}

/// The first two clash, and their outputs are their inputs, so that what settling adds clashes with the first once more.
fn chained(at: u32) -> [u32; 3] {
    match at {
        0 => [1, 2, 1],
        1 => [1, 2, 2],
        2 => [0, 1, 3],
        _ => [0, at, at + 1],
    }
}

/// Where it stands first, the loop is what all the others come to.
fn order_of(draw: &mut Draw, full: bool, list: &mut [Vec<u32>]) {
    if !full {
        order(draw, list);
    }
}

#[cfg(test)]
mod tests {
    use super::{Draw, flat, value_eq_chain, written};
    use crate::case::{Call, Case};
    use crate::records::Signature;
    use crate::trial::Bench;

    /// Passes and replacements of full ones.
    fn settled(make: impl Fn(&mut Draw) -> Case) -> Vec<(Call, u64, u64)> {
        let bench = Bench::new();
        let mut all: Vec<(Call, u64, u64)> = (0..8)
            .map(|index| {
                let case = make(&mut Draw::of_case(1, "loops", index));
                let answer = bench.expected(&case).answer;
                (case.call, answer.passes, answer.replacements)
            })
            .collect();
        all.sort_by_key(|&(call, ..)| call as usize);
        all.dedup();
        all
    }

    #[test]
    fn each_link_is_a_pass() {
        let trial = Signature::trial();
        assert_eq!(settled(|draw| written(draw, &trial, true)), [(Call::Lower, 465, 479)]);
        assert_eq!(settled(|draw| flat(draw, &trial, true)), [(Call::Settle, 341, 340)]);
        let chains = settled(|draw| value_eq_chain(draw, Signature::trial(), true));
        assert_eq!(chains, [(Call::Lower, 103, 102), (Call::Settle, 256, 0)]);
    }
}
