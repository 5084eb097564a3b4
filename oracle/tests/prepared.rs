//! Decoding ahead of time changes nothing: the same words as from the calls that decode.

#[path = "common/draw.rs"]
#[allow(dead_code, reason = "other tests use the rest")]
mod draw;

use draw::Draw;
use oracle::prepared::Decoded;

const CASES: u64 = 2_000;
const COUNTERS: [u32; 6] = [0; 6];

#[test]
fn lowers_as_the_call_does() {
    let mut accepted = 0;
    for case in 0..CASES {
        let mut draw = Draw::new(case);
        let signature = draw.signature();
        let rule = draw.written_rule(signature[0] - 0x0100_0000);
        let Ok(lowered) = oracle::lower(&signature, &rule, &mut COUNTERS.clone()) else { continue };
        let decoded = Decoded::new(&signature).expect("the call took it");
        let written = decoded.written(&rule).expect("the call took it");
        let settled = decoded.lower(&written, &mut decoded.generator()).expect("the call took it");
        assert_eq!(settled.words(), lowered.words);
        accepted += 1;
    }
    assert!(accepted > CASES / 4, "only {accepted} were accepted");
}

#[test]
fn settles_and_frees_as_the_calls_do() {
    let mut accepted = 0;
    for case in 0..CASES {
        let mut draw = Draw::new(case);
        let signature = draw.signature();
        let rule = draw.flat_rule(signature[0] - 0x0100_0000);
        let Ok(settled) = oracle::settle(&signature, &rule) else { continue };
        let decoded = Decoded::new(&signature).expect("the call took it");
        let flat = decoded.flat(&rule).expect("the call took it");
        assert_eq!(Ok(flat.free_vars().words()), oracle::free_vars(&signature, &rule));
        assert_eq!(decoded.settle(flat).words(), settled.words);
        accepted += 1;
    }
    assert!(accepted > CASES / 4, "only {accepted} were accepted");
}
