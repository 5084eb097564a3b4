//! Families of rules. Each is one round: rules one after the other, counters cleared before the first.

mod flat;
mod odd;
mod written;

use crate::draw::Draw;
use crate::records::{Signature, Writer};
use crate::words::{CONSTRUCTOR, FUNCTION, NAMES, PRIMITIVE};

#[derive(Debug, Clone, Copy, PartialEq, Eq)]
pub enum Call {
    Lower,
    Settle,
    FreeVars,
}

pub struct Family {
    pub name: &'static str,
    pub what: &'static str,
    pub call: Call,
    pub signature: Vec<u32>,
    /// A single rule stands here several times, so that a round takes long enough to be timed.
    pub rules: Vec<Vec<u32>>,
}

impl Family {
    pub fn heads(&self) -> usize {
        self.signature.len() - SIGNATURE_FRONT
    }
}

/// Words of a signature before its heads.
const SIGNATURE_FRONT: usize = 4;
const SEED: u64 = 1;
/// Heads by their sorts in the signature of most families; head 0 is value-eq.
const F: u32 = 1;
const C: u32 = 2;
const G: u32 = 3;
/// The only global of it.
const GLOBAL: u32 = 0;
/// The first variable of rules that are not drawn.
const FIRST: u32 = 10;

/// The nine families of the first table, then the largest signature.
pub fn ten() -> Vec<Family> {
    use written::{chain, equalities, heads, large, largest_signature, merges, same, small, small_hot, wide};
    vec![small(), small_hot(), large(), merges(), equalities(), chain(), same(), wide(), heads(), largest_signature()]
}

/// Those of the second table: each leans on one thing.
pub fn more() -> Vec<Family> {
    [odd::all(), flat::settled(), flat::freed()].into_iter().flatten().collect()
}

/// Four heads of all sorts, one global, unions become sets.
fn signature() -> Signature {
    Signature::trial()
}

/// As many heads as there may be, head 0 for value-eq, the others functions and constructors by turns.
fn largest() -> Signature {
    let sort = |head| match head {
        0 => PRIMITIVE,
        _ if head % 2 == 1 => FUNCTION,
        _ => CONSTRUCTOR,
    };
    Signature { sorts: (0..NAMES).map(sort).collect(), ..signature() }
}

/// One rule, so many times in a round.
fn one(call: Call, name: &'static str, what: &'static str, times: usize, rule: Vec<u32>) -> Family {
    Family { name, what, call, signature: signature().words(), rules: vec![rule; times] }
}

/// One written rule.
fn lowered(name: &'static str, what: &'static str, times: usize, rule: Vec<u32>) -> Family {
    one(Call::Lower, name, what, times, rule)
}

/// So many accepted rules of lengths between these.
fn drawn(name: &'static str, what: &'static str, rules: usize, least: usize, most: usize) -> Family {
    let signature = signature();
    let words = signature.words();
    let counters = vec![0; signature.heads() as usize];
    let accepted = |index| {
        let mut draw = Draw::of_case(SEED, name, index);
        let length = length(&mut draw, least, most);
        let rule = Writer::new(&mut draw, &signature).written(length);
        oracle::lower(&words, &rule, &mut counters.clone()).is_ok().then_some(rule)
    };
    let rules = (0..).filter_map(accepted).take(rules).collect();
    Family { name, what, call: Call::Lower, signature: words, rules }
}

/// Some more long ones than short ones.
fn length(draw: &mut Draw, least: usize, most: usize) -> usize {
    let length = draw.between(least, most);
    if draw.once_in(8) { length.max(draw.between(least, most)) } else { length }
}
