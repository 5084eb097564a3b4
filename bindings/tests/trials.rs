//! P1 to P13 of document 01, through the archive.

mod common;

use common::{Counts, FLAG_OFF, P1, P1_LOWERED, TRIAL, lower, lower_from, record};
use tulgarent::Refusal;

/// The rule is accepted with these words, replacements and passes.
fn gives(rule: &str, lowered: &str, replacements: usize, passes: usize) {
    let expected = record(lowered);
    let words = expected.len();
    assert_eq!(lower(TRIAL, rule), Ok((expected, Counts { words, replacements, passes })), "{rule}");
}

#[test]
fn p1() {
    gives(P1, P1_LOWERED, 3, 2);
    let (_, after) = lower_from(&record(TRIAL), &record(P1), &[0; 4], 17);
    assert_eq!(after, [0, 2, 0, 1]);
    let (answer, _) = lower_from(&record(TRIAL), &record(P1), &[0; 4], 16);
    assert_eq!(answer, Err(Refusal::Output { needed: 17 }));
}

#[test]
fn p2_to_p7() {
    gives("04000000", "04000000", 0, 1);
    gives("04001000 08000002 20000001 20000002", "04001000 10000003 20000001 20000002 20000000", 0, 1);
    gives("04001000 08000002 20000001 20000001", "04000000", 0, 1);
    gives("04001000 08000002 40000001 40000000", "04000001 02000001 40000001 40000000", 1, 1);
    gives("04001000 08000002 20000001 40000001", "04000001 02000001 40000001 20000001", 1, 1);
    gives("04001000 08000002 40000001 40000002", "04000001 02000001 40000001 40000002", 1, 1);
}

#[test]
fn p8_to_p10() {
    assert_eq!(lower(TRIAL, "04001001 40000001 02000008 40000001"), Err(Refusal::Unbound { place: 3 }));
    let let_of_bound = "04001001 08000002 40000001 40000001 02000001 40000001 40000009";
    assert_eq!(lower(TRIAL, let_of_bound), Err(Refusal::AlreadyDefined { place: 4 }));
    let union = "04000001 02000005 40000001 10020001 40000002";
    assert_eq!(lower(TRIAL, union), Err(Refusal::Unbound { place: 4 }));
    assert_eq!(lower(FLAG_OFF, union), Err(Refusal::Unbound { place: 2 }));
}

#[test]
fn p11() {
    gives(
        "04002000 08000002 20000001 10010001 40000001 08000002 20000002 10010001 40000001",
        "04002002 10000003 20000001 20000002 20000000 10010002 40000001 20000001 02000001 80010001 20000002 02000001
         80010000 20000001",
        2,
        2,
    );
}

#[test]
fn p12() {
    let rule = record("04001000 10010000");
    let (answer, after) = lower_from(&record(TRIAL), &rule, &[0, 65_535, 0, 0], 8);
    assert_eq!(answer.map(|(words, _)| words), Ok(record("04001000 10010001 8001ffff")));
    assert_eq!(after, [0, 65_536, 0, 0]);
    let (answer, _) = lower_from(&record(TRIAL), &rule, &[0, 65_536, 0, 0], 8);
    assert_eq!(answer, Err(Refusal::CounterAtEnd { place: 1 }));
}

#[test]
fn p13() {
    let nested = |calls| format!("04001000 {} 40000001", "10010001 ".repeat(calls));
    assert_eq!(lower(TRIAL, &nested(31)).map(|(words, _)| words.len()), Ok(1 + 31 * 3));
    assert_eq!(lower(TRIAL, &nested(32)), Err(Refusal::TooDeep { place: 33 }));
}
