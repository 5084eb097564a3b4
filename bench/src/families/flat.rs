//! Flat rules of the greatest length: settling alone, and free variables.

use super::{Call, F, FIRST, Family, SEED, largest, one};
use crate::draw::Draw;
use crate::records::joined;
use crate::words::{CALL, EQUALITY, SET, UNION, action, call, fresh, literal, name};

pub fn settled() -> Vec<Family> {
    vec![
        settle("flat merges", "two chains of 170 atoms, one merge a pass", 1, &chains()),
        settle("flat equalities", "341 times x = y", 2, &atoms(341, |n| vec![EQUALITY, name(n), name(n + 1)])),
        settle("flat same", "f of no inputs 511 times", 2, &atoms(511, |n| vec![call(F, 1), name(n)])),
        settle(
            "flat apart",
            "255 atoms, none alike",
            16,
            &atoms(255, |n| vec![call(F, 3), name(n), name(n + 1), name(n)]),
        ),
        settle("flat twice", "170 atoms, each there twice", 16, &twice()),
        actions(),
        settle("flat wide", "one atom of 1,022 terms", 32, &[wide(1_022)]),
        settle("flat wide twice", "two atoms of 510 terms, alike", 32, &[wide(510), wide(510)]),
    ]
}

/// Nothing to do but to read and to write.
fn actions() -> Family {
    let unions: Vec<Vec<u32>> = (FIRST..).map(|n| vec![action(UNION), name(n), literal(1)]).take(341).collect();
    one(Call::Settle, "flat actions", "341 unions, no atoms", 32, joined(&[], &unions))
}

pub fn freed() -> Vec<Family> {
    let set = |names: Vec<u32>| vec![[vec![action(SET), call(F, names.len() - 1)], names].concat()];
    let union = |n: u32| vec![action(UNION), name(FIRST + n % 9), literal(1)];
    let unions: Vec<Vec<u32>> = (0..341).map(union).collect();
    let mixed: Vec<Vec<u32>> = shuffled((0..341).collect()).into_iter().map(union).collect();
    let calls: Vec<Vec<u32>> =
        (FIRST..).map(|n| vec![action(CALL), name(n), call(F, 1), name(n + 1)]).take(255).collect();
    let ascending: Vec<u32> = (FIRST..).map(name).take(1_021).collect();
    let descending: Vec<u32> = ascending.iter().copied().rev().collect();
    let disordered = shuffled(ascending.clone());
    let near = shuffled((0..1_021).map(|n| fresh(F, n)).collect());
    let far = shuffled((0..1_021).map(|n| fresh(n % 4, n * 64)).collect());
    vec![
        Family {
            name: "free vars, largest signature",
            what: "no actions, under 4,096 heads",
            signature: largest().words(),
            ..free("", "", &[])
        },
        free("free vars few", "9 variables in 341 unions", &unions),
        free("free vars mixed", "9 variables in 341 unions, in no order", &mixed),
        free("free vars bound", "255 calls, each binds what the one before reads", &calls),
        free("free vars up", "1,021 variables in a set, ascending", &set(ascending)),
        free("free vars down", "1,021 variables in a set, descending", &set(descending)),
        free("free vars any", "1,021 variables in a set, in no order", &set(disordered)),
        free("free vars fresh", "1,021 fresh variables of one head, in no order", &set(near)),
        free("free vars far", "1,021 fresh variables, all far apart, in no order", &set(far)),
    ]
}

fn shuffled(mut list: Vec<u32>) -> Vec<u32> {
    Draw::of_case(SEED, "shuffled", 0).shuffle(&mut list);
    list
}

fn settle(name: &'static str, what: &'static str, times: usize, atoms: &[Vec<u32>]) -> Family {
    one(Call::Settle, name, what, times, joined(atoms, &[]))
}

fn free(name: &'static str, what: &'static str, actions: &[Vec<u32>]) -> Family {
    one(Call::FreeVars, name, what, 32, joined(&[], actions))
}

fn atoms(count: usize, atom: impl Fn(u32) -> Vec<u32>) -> Vec<Vec<u32>> {
    (FIRST..).map(atom).take(count).collect()
}

/// Two chains over one beginning: a pass makes the next links alike.
fn chains() -> Vec<Vec<u32>> {
    let link = |side: u32, n: u32| {
        let from = if n == 0 { FIRST } else { FIRST + 2 * n + side };
        vec![call(F, 2), name(from), name(FIRST + 2 * (n + 1) + side)]
    };
    (0..2).flat_map(|side| (0..170).map(move |n| link(side, n))).collect()
}

fn twice() -> Vec<Vec<u32>> {
    let once = atoms(170, |n| vec![call(F, 2), name(n), name(n)]);
    [once.clone(), once].concat()
}

fn wide(terms: usize) -> Vec<u32> {
    [vec![call(F, terms)], (FIRST..).map(name).take(terms).collect()].concat()
}
