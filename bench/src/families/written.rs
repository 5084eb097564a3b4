//! The nine families of written rules by which speed is judged, and the largest signature.

use super::{C, F, FIRST, Family, G, GLOBAL, drawn, largest, lowered};
use crate::records::joined;
use crate::words::{
    DELETE, EQUALITY, EXPRESSION, LET, PANIC, SET, SUBSUME, UNION, WRITTEN_WORDS, action, call, literal, name,
};

pub fn small() -> Family {
    drawn("small", "4,000 rules of 5 to 60 words, varied", 4_000, 5, 60)
}

pub fn small_hot() -> Family {
    drawn("small hot", "the same 200 small rules again and again", 200, 5, 60)
}

pub fn large() -> Family {
    drawn("large", "200 rules of 300 to 512 words, varied", 200, 300, WRITTEN_WORDS)
}

/// Equalities x = f(..f(w)) in pairs over one beginning, calls as deep as they may be. A pass finds one pair of calls
/// alike, which makes the next pair alike.
pub fn merges() -> Family {
    lowered("merges", "a cascade: each merge makes two more calls alike", 1, cascade(WRITTEN_WORDS - 1))
}

/// A rule of at most so many words.
pub fn cascade(longest: usize) -> Vec<u32> {
    let (mut facts, mut used) = (Vec::new(), 1);
    let (mut ends, mut names) = ([name(FIRST); 2], (FIRST + 1..).map(name));
    while used + 10 <= longest {
        let depth = ((longest - used) / 2 - 3).min(31);
        for (end, next) in ends.iter_mut().zip(names.by_ref()) {
            facts.push([vec![EQUALITY, next], vec![call(F, 1); depth], vec![*end]].concat());
            *end = next;
            used += depth + 3;
        }
    }
    joined(&facts, &[])
}

pub fn equalities() -> Family {
    let facts: Vec<Vec<u32>> = (FIRST..).map(|n| vec![EQUALITY, name(n), name(n + 1)]).take(170).collect();
    lowered("equalities", "170 times x = y, nothing to merge", 8, joined(&facts, &[]))
}

pub fn chain() -> Family {
    lowered("chain", "127 times x = f(y), each y the next x", 8, links(127))
}

pub fn links(count: usize) -> Vec<u32> {
    let fact = |n| vec![EQUALITY, name(n), call(F, 1), name(n + 1)];
    joined(&(FIRST..).map(fact).take(count).collect::<Vec<_>>(), &[])
}

pub fn same() -> Family {
    lowered("same", "the call f() 511 times: all are one", 4, joined(&vec![vec![call(F, 0)]; 511], &[]))
}

pub fn wide() -> Family {
    lowered("wide", "one call of 510 names, nothing to settle", 32, broad(510))
}

pub fn broad(names: usize) -> Vec<u32> {
    let fact = std::iter::once(call(F, names)).chain((FIRST..).map(name).take(names)).collect();
    joined(&[fact], &[])
}

/// Actions of every code by turns, reading the global and literals, as many as fit.
pub fn heads() -> Family {
    let (g, one) = (name(GLOBAL), literal(1));
    let by_turns = |n: u32| match n % 8 {
        0 => vec![action(LET), name(FIRST + n), one],
        1 => vec![action(SET), call(F, 1), g, one],
        2 => vec![action(DELETE), call(F, 1), g],
        3 => vec![action(UNION), g, call(C, 1), g],
        4 => vec![action(PANIC), one],
        5 => vec![action(EXPRESSION), call(G, 2), g, one],
        6 => vec![action(SUBSUME), call(C, 1), g],
        _ => vec![action(EXPRESSION), call(F, 0)],
    };
    let actions: Vec<Vec<u32>> = (0..).map(by_turns).take(163).collect();
    lowered("heads", "actions of every code, no facts", 32, joined(&[], &actions))
}

/// The small rules read but four of its heads; the whole signature is tested all the same.
pub fn largest_signature() -> Family {
    let what = "the 200 small rules under 4,096 heads";
    Family { name: "largest signature", what, signature: largest().words(), ..small_hot() }
}
