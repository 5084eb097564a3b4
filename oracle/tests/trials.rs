//! P1 to P13 of document 01.

mod common;

use common::{AMPLE, FLAG_OFF, TRIAL, bytes, lower, lower_from, refusal, refused, words};
use oracle::Lowered;

const P1: &str =
    "04002001 08000002 40000002 10010001 40000001 08000002 40000003 10010001 40000001 02000002 10030001 40000001
    40000003";
const P1_LOWERED: &str =
    "04001004 10010002 40000001 80010001 02000001 80010000 80010001 02000001 40000003 80010001 02000001
    40000002 80010000 02000002 10030001 40000001 40000003";

/// The rule is accepted with these words, replacements and passes.
fn gives(rule: &str, lowered: &str, replacements: usize, passes: usize) {
    let answer = lower(&words(TRIAL), &words(rule));
    assert_eq!(answer, Ok(Lowered { words: words(lowered), replacements, passes }), "{rule}");
}

/// The program prints the same answer.
fn prints(signature: &str, rule: &str, expected: &str) {
    let input: String = words(signature).iter().chain(&words(rule)).map(|word| format!("{word:08x}\n")).collect();
    assert_eq!(oracle::program(input.as_bytes()), expected);
}

#[test]
fn p1() {
    gives(P1, P1_LOWERED, 3, 2);
    let lines: String = words(P1_LOWERED).iter().map(|word| format!("{word:08x}\n")).collect();
    prints(TRIAL, P1, &format!("ok 17 3 2\n{lines}"));
    let (_, after) = lower_from(&words(TRIAL), &words(P1), &[0; 4]).expect("accepted");
    assert_eq!(after, [0, 2, 0, 1]);
}

#[test]
fn p1_with_an_output_of_16_words() {
    let mut output = [0xa5; 4 * 16];
    let mut counters = [0; 4 * 4];
    let answer = oracle::lower_bytes(&bytes(&words(TRIAL)), &bytes(&words(P1)), &mut counters, &mut output, AMPLE);
    assert_eq!(answer, refused(10, 17));
    assert_eq!(output, [0xa5; 4 * 16]);
    assert_eq!(counters, [0; 4 * 4]);
}

#[test]
fn p2() {
    gives("04000000", "04000000", 0, 1);
    prints(TRIAL, "04000000", "ok 1 0 1\n04000000\n");
}

#[test]
fn p3() {
    gives("04001000 08000002 20000001 20000002", "04001000 10000003 20000001 20000002 20000000", 0, 1);
}

#[test]
fn p4() {
    gives("04001000 08000002 20000001 20000001", "04000000", 0, 1);
}

#[test]
fn p5() {
    gives("04001000 08000002 40000001 40000000", "04000001 02000001 40000001 40000000", 1, 1);
}

#[test]
fn p6() {
    gives("04001000 08000002 20000001 40000001", "04000001 02000001 40000001 20000001", 1, 1);
}

#[test]
fn p7() {
    gives("04001000 08000002 40000001 40000002", "04000001 02000001 40000001 40000002", 1, 1);
}

#[test]
fn p8() {
    let rule = "04001001 40000001 02000008 40000001";
    assert_eq!(lower(&words(TRIAL), &words(rule)), Err(refusal(7, 3)));
    prints(TRIAL, rule, "refused 7 3\n");
}

#[test]
fn p9() {
    let rule = "04001001 08000002 40000001 40000001 02000001 40000001 40000009";
    assert_eq!(lower(&words(TRIAL), &words(rule)), Err(refusal(8, 4)));
    prints(TRIAL, rule, "refused 8 4\n");
}

#[test]
fn p10_by_its_flag() {
    let rule = "04000001 02000005 40000001 10020001 40000002";
    assert_eq!(lower(&words(TRIAL), &words(rule)), Err(refusal(7, 4)));
    assert_eq!(lower(&words(FLAG_OFF), &words(rule)), Err(refusal(7, 2)));
    prints(TRIAL, rule, "refused 7 4\n");
    prints(FLAG_OFF, rule, "refused 7 2\n");
}

#[test]
fn p11() {
    gives(
        "04002000 08000002 20000001 10010001 40000001 08000002 20000002 10010001 40000001",
        "04002002 10000003 20000001 20000002 20000000 10010002 40000001 20000001 02000001 80010001 20000002 02000001
         80010000 20000001",
        2,
        2,
    );
}

#[test]
fn p12_last_count() {
    let (lowered, after) =
        lower_from(&words(TRIAL), &words("04001000 10010000"), &[0, 65_535, 0, 0]).expect("accepted");
    assert_eq!(lowered, Lowered { words: words("04001000 10010001 8001ffff"), replacements: 0, passes: 1 });
    assert_eq!(after, [0, 65_536, 0, 0]);
}

#[test]
fn p12_no_count_left() {
    let answer = lower_from(&words(TRIAL), &words("04001000 10010000"), &[0, 65_536, 0, 0]);
    assert_eq!(answer, Err(refusal(9, 1)));
}

/// So many calls, one inside the other, around a name.
fn nested(calls: usize) -> String {
    format!("04001000 {} 40000001", "10010001 ".repeat(calls))
}

#[test]
fn p13_deepest() {
    let (lowered, after) = lower_from(&words(TRIAL), &words(&nested(31)), &[0; 4]).expect("accepted");
    // The innermost call has the highest count and comes first.
    let atoms = (0..31).rev().flat_map(|count| {
        let argument = if count == 30 { 0x4000_0001 } else { 0x8001_0001 + count };
        [0x1001_0002, argument, 0x8001_0000 + count]
    });
    let expected: Vec<u32> = std::iter::once(0x0401_f000).chain(atoms).collect();
    assert_eq!(lowered, Lowered { words: expected, replacements: 0, passes: 1 });
    assert_eq!(after, [0, 31, 0, 0]);
}

#[test]
fn p13_too_deep() {
    assert_eq!(lower(&words(TRIAL), &words(&nested(32))), Err(refusal(6, 33)));
    prints(TRIAL, &nested(32), "refused 6 33\n");
}
