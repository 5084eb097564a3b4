//! What holds for every record, tried on many. That a refusal leaves output and counters, and that words and bytes agree,
//! is tested by the calls of `common` each time they run.

mod common;
#[path = "common/draw.rs"]
mod draw;

use common::{TRIAL, free_vars, lower, lower_from, settle, words};
use draw::Draw;
use oracle::{Lowered, to_core_rule};
use std::collections::HashSet;

const CASES: u64 = 3_000;
const COUNTERS: [u32; 6] = [0, 1, 65_534, 65_535, 7, 9];

/// An atom's first word, and its terms.
type Atom = (u32, Vec<u32>);

fn atoms_of(rule: &[u32]) -> Vec<Atom> {
    let count = (rule[0] - 0x0400_0000) / 4_096;
    let mut at = 1;
    (0..count)
        .map(|_| {
            let end = at + 1 + (rule[at] & 0xffff) as usize;
            let atom = (rule[at], rule[at + 1..end].to_vec());
            at = end;
            atom
        })
        .collect()
}

/// Distinct variables among the atoms' terms.
fn variables(atoms: &[Atom], globals: u32) -> usize {
    let terms = atoms.iter().flat_map(|(_, terms)| terms);
    terms.filter(|&&term| term >= 0x4000_0000 + globals).collect::<HashSet<_>>().len()
}

/// What document 01 promises of a settled rule, given the flat one that it came from.
fn check_settled(signature: &[u32], flat: &[u32], settled: &Lowered) {
    let before = atoms_of(flat);
    assert!(settled.replacements <= variables(&before, signature[1] - 0x0100_0000));
    assert!(settled.passes <= before.len() + 1);
    let after = atoms_of(&settled.words);
    let inputs: HashSet<(u32, &[u32])> = after.iter().map(|(head, terms)| (*head, &terms[..terms.len() - 1])).collect();
    assert_eq!(inputs.len(), after.len(), "two atoms alike in head and inputs");
    let again = settle(signature, &settled.words).expect("a settled rule is a flat rule");
    assert_eq!(again, Lowered { words: settled.words.clone(), replacements: 0, passes: 1 });
}

#[test]
fn lowering_is_flattening_and_then_settling() {
    let mut accepted = 0;
    for case in 0..CASES {
        let mut draw = Draw::new(case);
        let signature = draw.signature();
        let heads = signature[0] - 0x0100_0000;
        let rule = draw.written_rule(heads);
        let flat = to_core_rule(&signature, &rule, &COUNTERS);
        match lower_from(&signature, &rule, &COUNTERS) {
            Err(refusal) => assert_eq!(flat, Err(refusal)),
            Ok((lowered, after)) => {
                let flat = flat.expect("lowered");
                assert_eq!(settle(&signature, &flat), Ok(lowered.clone()));
                check_settled(&signature, &flat, &lowered);
                assert!(lowered.words.len() <= (4 * rule.len()).saturating_sub(6).max(3), "{rule:08x?}");
                assert_eq!(after[heads as usize..], COUNTERS[heads as usize..], "counters past the heads stay");
                accepted += 1;
            }
        }
    }
    assert!(accepted > CASES / 4, "only {accepted} were accepted");
}

#[test]
fn settling_keeps_its_promises() {
    for case in 0..CASES {
        let mut draw = Draw::new(case);
        let signature = draw.signature();
        let rule = draw.flat_rule(signature[0] - 0x0100_0000);
        let settled = settle(&signature, &rule).expect("well formed");
        check_settled(&signature, &rule, &settled);
        assert!(settled.words.len() <= (2 * rule.len()).saturating_sub(3).max(1), "{rule:08x?}");
        let free = free_vars(&signature, &rule).expect("well formed");
        assert!(free.is_sorted_by(|a, b| a < b));
        assert!(free.iter().all(|variable| rule.contains(variable)));
    }
}

#[test]
fn spoilt_records_are_answered() {
    for case in 0..CASES {
        let mut draw = Draw::new(case);
        let mut signature = draw.signature();
        let heads = signature[0] - 0x0100_0000;
        let mut written = draw.written_rule(heads);
        let mut flat = draw.flat_rule(heads);
        draw.spoil(&mut written);
        draw.spoil(&mut flat);
        if draw.below(8) == 0 {
            draw.spoil(&mut signature);
        }
        let _ = lower(&signature, &written);
        let _ = lower(&signature, &flat);
        let _ = settle(&signature, &flat);
        let _ = free_vars(&signature, &written);
    }
}

#[test]
fn any_words_are_answered() {
    for case in 0..CASES {
        let mut draw = Draw::new(case);
        let rule: Vec<u32> = (0..draw.below(12)).map(|_| draw.any_word()).collect();
        let _ = lower(&words(TRIAL), &rule);
        let _ = settle(&words(TRIAL), &rule);
        let _ = free_vars(&rule, &rule);
    }
}

/// Two chains of calls from one variable, merged call by call: the longest run of passes for its length, and the deepest
/// recursion of the source's merging.
#[test]
fn a_long_cascade_of_merges() {
    let calls = 170;
    let mut rule = vec![0x0400_0000 + 4_096 * 2 * calls];
    for step in 0..calls {
        for chain in 0..2 {
            let argument = if step == 0 { 0x4000_0001 } else { 0x4000_0000 + 2 * step + chain };
            rule.extend([0x1001_0002, argument, 0x4000_0002 + 2 * step + chain]);
        }
    }
    let settled = settle(&words(TRIAL), &rule).expect("accepted");
    assert_eq!((settled.replacements, settled.passes), (170, 171));
    check_settled(&words(TRIAL), &rule, &settled);
}
