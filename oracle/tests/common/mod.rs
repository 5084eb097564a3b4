//! Records as text, and each call run over words and over bytes at once.

// Every test file is a crate of its own and uses a part of this.
#![allow(dead_code)]

use oracle::{Answer, Lowered, Refusal};

/// The trial signature: H 4, G 1, value-eq 0, flag 1; heads primitive, function, constructor, function.
pub const TRIAL: &str = "01000004 01000001 01000000 01000001 01000002 01000000 01000001 01000000";
/// The same with the flag off.
pub const FLAG_OFF: &str = "01000004 01000001 01000000 01000000 01000002 01000000 01000001 01000000";

/// Bytes of an output or scratch that is large enough for anything.
pub const AMPLE: usize = 4 * 16_384;

/// A byte that no call has reason to write all over.
const MARK: u8 = 0xa5;

pub fn words(text: &str) -> Vec<u32> {
    text.split_whitespace().map(|word| u32::from_str_radix(word, 16).expect("eight digits")).collect()
}

pub fn bytes(words: &[u32]) -> Vec<u8> {
    words.iter().flat_map(|word| word.to_le_bytes()).collect()
}

pub fn refusal(number: u64, place: u64) -> Refusal {
    Refusal { number, place }
}

/// Lowers with the given counters. Returns the counters after it, too.
pub fn lower_from(signature: &[u32], rule: &[u32], counters: &[u32]) -> Result<(Lowered, Vec<u32>), Refusal> {
    let mut after = counters.to_vec();
    let answer = oracle::lower(signature, rule, &mut after);
    let mut after_bytes = bytes(counters);
    same_in_bytes(&answer, |output| {
        oracle::lower_bytes(&bytes(signature), &bytes(rule), &mut after_bytes, output, AMPLE)
    });
    assert_eq!(after_bytes, bytes(&after), "counters over words and over bytes");
    match answer {
        Ok(lowered) => Ok((lowered, after)),
        Err(refusal) => {
            assert_eq!(after, counters, "a refusal leaves the counters");
            Err(refusal)
        }
    }
}

/// Lowers with counters at zero, one a head, or enough of them where the signature doesn't say.
pub fn lower(signature: &[u32], rule: &[u32]) -> Result<Lowered, Refusal> {
    lower_from(signature, rule, &[0; 4_096]).map(|(lowered, _)| lowered)
}

pub fn settle(signature: &[u32], rule: &[u32]) -> Result<Lowered, Refusal> {
    let answer = oracle::settle(signature, rule);
    same_in_bytes(&answer, |output| oracle::settle_bytes(&bytes(signature), &bytes(rule), output, AMPLE));
    answer
}

pub fn free_vars(signature: &[u32], rule: &[u32]) -> Result<Vec<u32>, Refusal> {
    let answer = oracle::free_vars(signature, rule);
    let counted = answer.clone().map(|words| Lowered { words, replacements: 0, passes: 0 });
    same_in_bytes(&counted, |output| oracle::free_vars_bytes(&bytes(signature), &bytes(rule), output));
    answer
}

/// The byte call gives the same, writes the words and nothing past them, and writes nothing if it refuses. With an
/// output one word too short it gives 10.
fn same_in_bytes(expected: &Result<Lowered, Refusal>, mut call: impl FnMut(&mut [u8]) -> Answer) {
    if let Ok(Lowered { words, .. }) = expected
        && let Some(short) = words.len().checked_sub(1)
    {
        let mut output = vec![MARK; 4 * short];
        assert_eq!(call(&mut output), refused(10, words.len() as u64), "one word too short");
        assert!(output.iter().all(|&byte| byte == MARK), "10 leaves the output");
    }
    let mut output = vec![MARK; AMPLE];
    let answer = call(&mut output);
    let written = match expected {
        Ok(lowered) => {
            assert_eq!(answer, accepted(lowered));
            bytes(&lowered.words)
        }
        Err(refusal) => {
            assert_eq!(answer, refused(refusal.number, refusal.place));
            Vec::new()
        }
    };
    assert_eq!(output[..written.len()], written);
    assert!(output[written.len()..].iter().all(|&byte| byte == MARK), "the rest of the output stays");
}

fn accepted(lowered: &Lowered) -> Answer {
    Answer {
        number: 0,
        place: 0,
        words: lowered.words.len() as u64,
        replacements: lowered.replacements as u64,
        passes: lowered.passes as u64,
    }
}

pub fn refused(number: u64, place: u64) -> Answer {
    Answer { number, place, words: 0, replacements: 0, passes: 0 }
}
