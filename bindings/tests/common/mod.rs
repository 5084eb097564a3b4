//! Records as text, and each call made in every way at once: over words, over bytes, and by the owner.

// Every test file is a crate of its own and uses a part of this.
#![allow(dead_code)]

use tulgarent::{
    Counters, Element, Flat, Lowered, Output, Refusal, SCRATCH_BYTES, SCRATCH_WORDS, Scratch, Signature, WORD_BYTES,
    Written,
};

/// H 4, G 1, value-eq 0, flag 1; heads primitive, function, constructor, function.
pub const TRIAL: &str = "01000004 01000001 01000000 01000001 01000002 01000000 01000001 01000000";
pub const FLAG_OFF: &str = "01000004 01000001 01000000 01000000 01000002 01000000 01000001 01000000";

pub const P1: &str =
    "04002001 08000002 40000002 10010001 40000001 08000002 40000003 10010001 40000001 02000002 10030001 40000001
    40000003";
pub const P1_LOWERED: &str =
    "04001004 10010002 40000001 80010001 02000001 80010000 80010001 02000001 40000003 80010001 02000001
    40000002 80010000 02000002 10030001 40000001 40000003";

/// What the output holds before a call.
pub const MARK: u32 = 0xa5a5_a5a5;
/// What scratch holds before a call: a word that could stand in a record.
const DIRT: u32 = 0x4000_0001;

pub fn record(text: &str) -> Vec<u32> {
    text.split_whitespace().map(|word| u32::from_str_radix(word, 16).expect("eight digits")).collect()
}

pub fn bytes(words: &[u32]) -> Vec<u8> {
    words.iter().flat_map(|word| word.to_le_bytes()).collect()
}

/// Bits that a fixed seed gives.
pub fn random() -> impl FnMut() -> u64 {
    let mut state = 0x9e37_79b9_7f4a_7c15_u64;
    move || {
        state ^= state << 13;
        state ^= state >> 7;
        state ^= state << 17;
        state
    }
}

/// What an accepted rule came to.
#[derive(Debug, Clone, Copy, PartialEq, Eq)]
pub struct Counts {
    pub words: usize,
    pub replacements: usize,
    pub passes: usize,
}

impl Counts {
    fn of<T: Element>(lowered: Lowered<'_, T>) -> Counts {
        let words = size_of_val(lowered.words) / WORD_BYTES;
        Counts { words, replacements: lowered.replacements, passes: lowered.passes }
    }
}

pub type Counted = Result<Counts, Refusal>;

/// [`tulgarent::lower`] over slices in its order.
pub fn call_lower<T: Element>(
    signature: &[T],
    rule: &[T],
    counters: &mut [T],
    output: &mut [T],
    scratch: &mut [T],
) -> Counted {
    let (counters, output, scratch) = (Counters(counters), Output(output), Scratch(scratch));
    tulgarent::lower(Signature(signature), Written(rule), counters, output, scratch).map(Counts::of)
}

/// [`tulgarent::settle`] over slices in its order.
pub fn call_settle<T: Element>(signature: &[T], rule: &[T], output: &mut [T], scratch: &mut [T]) -> Counted {
    tulgarent::settle(Signature(signature), Flat(rule), Output(output), Scratch(scratch)).map(Counts::of)
}

/// [`tulgarent::free_vars`] over slices in its order: how many words were written.
pub fn call_free_vars<T: Element>(signature: &[T], rule: &[T], output: &mut [T]) -> Result<usize, Refusal> {
    let free = tulgarent::free_vars(Signature(signature), Flat(rule), Output(output))?;
    Ok(size_of_val(free) / WORD_BYTES)
}

/// The words written with their counts, or the refusal. The rest of the output was looked at.
pub type Outcome = Result<(Vec<u32>, Counts), Refusal>;

/// Lowers in every way, and returns the counters after it.
pub fn lower_from(signature: &[u32], rule: &[u32], counters: &[u32], room: usize) -> (Outcome, Vec<u32>) {
    let mut after = counters.to_vec();
    let mut output = vec![MARK; room];
    let answer = call_lower(signature, rule, &mut after, &mut output, &mut vec![DIRT; SCRATCH_WORDS]);
    let mut after_bytes = bytes(counters);
    let mut output_bytes = bytes(&vec![MARK; room]);
    let over_bytes = call_lower(
        &bytes(signature),
        &bytes(rule),
        &mut after_bytes,
        &mut output_bytes,
        &mut vec![0xff; SCRATCH_BYTES],
    );
    assert_eq!(over_bytes, answer);
    assert_eq!(after_bytes, bytes(&after));
    assert_eq!(output_bytes, bytes(&output));
    if answer.is_err() {
        assert_eq!(after, counters, "a refusal leaves the counters");
    }
    let outcome = looked_at(answer, output);
    owner::lowers_alike(signature, rule, counters, &outcome, &after);
    (outcome, after)
}

pub fn lower(signature: &str, rule: &str) -> Outcome {
    lower_from(&record(signature), &record(rule), &[0; 4_096], 2_048).0
}

pub fn settle(signature: &str, rule: &str) -> Outcome {
    let (signature, rule) = (record(signature), record(rule));
    let mut output = vec![MARK; 2_048];
    let answer = call_settle(&signature, &rule, &mut output, &mut vec![DIRT; SCRATCH_WORDS]);
    let mut output_bytes = bytes(&vec![MARK; 2_048]);
    let mut scratch = vec![0xff; SCRATCH_BYTES];
    assert_eq!(call_settle(&bytes(&signature), &bytes(&rule), &mut output_bytes, &mut scratch), answer);
    assert_eq!(output_bytes, bytes(&output));
    let outcome = looked_at(answer, output);
    owner::settles_alike(&signature, &rule, &outcome);
    outcome
}

pub fn free_vars(signature: &str, rule: &str) -> Result<Vec<u32>, Refusal> {
    let (signature, rule) = (record(signature), record(rule));
    let mut output = vec![MARK; 1_024];
    let answer = call_free_vars(&signature, &rule, &mut output);
    let mut output_bytes = bytes(&vec![MARK; 1_024]);
    assert_eq!(call_free_vars(&bytes(&signature), &bytes(&rule), &mut output_bytes), answer);
    assert_eq!(output_bytes, bytes(&output));
    let counted = answer.map(|words| Counts { words, replacements: 0, passes: 0 });
    let free = looked_at(counted, output).map(|(words, _)| words);
    owner::frees_alike(&signature, &rule, &free);
    free
}

/// Nothing stands past the words written, and nothing at all after a refusal.
fn looked_at(answer: Counted, mut output: Vec<u32>) -> Outcome {
    let written = answer.map_or(0, |counts| counts.words);
    assert!(output[written..].iter().all(|&word| word == MARK), "the rest of the output stays");
    output.truncate(written);
    answer.map(|counts| (output, counts))
}

/// The owner gives what the calls over lent slices gave.
#[cfg(feature = "alloc")]
mod owner {
    use super::{Counts, Outcome, Refusal, bytes};
    use tulgarent::{Lowered, Lowerer, Word};

    fn outcome(lowered: Result<Lowered<'_>, Refusal>) -> Outcome {
        lowered.map(|lowered| (Word::slice_bits(lowered.words).to_vec(), Counts::of(lowered)))
    }

    pub fn lowers_alike(signature: &[u32], rule: &[u32], counters: &[u32], expected: &Outcome, after: &[u32]) {
        if matches!(expected, Err(Refusal::Output { .. })) {
            return; // The owner has room for every result.
        }
        let mut lowerer = match Lowerer::with_counters(signature, counters) {
            Ok(lowerer) => lowerer,
            Err(refusal) => return assert_eq!(Err(refusal), *expected),
        };
        assert_eq!(outcome(lowerer.lower(rule)), *expected);
        assert_eq!(lowerer.counters(), &after[..signature.len() - 4]);
        let mut over_bytes = Lowerer::with_counters(&bytes(signature), counters).expect("the signature is good");
        assert_eq!(outcome(over_bytes.lower(&bytes(rule))), *expected);
    }

    pub fn settles_alike(signature: &[u32], rule: &[u32], expected: &Outcome) {
        let answer = Lowerer::new(signature).and_then(|mut lowerer| outcome(lowerer.settle(Word::slice(rule))));
        assert_eq!(answer, *expected);
    }

    pub fn frees_alike(signature: &[u32], rule: &[u32], expected: &Result<Vec<u32>, Refusal>) {
        let mut lowerer = match Lowerer::new(signature) {
            Ok(lowerer) => lowerer,
            Err(refusal) => return assert_eq!(Err(refusal), *expected),
        };
        assert_eq!(lowerer.free_vars(rule).map(|free| Word::slice_bits(free).to_vec()), *expected);
    }
}

/// There is no owner without `alloc`.
#[cfg(not(feature = "alloc"))]
mod owner {
    use super::{Outcome, Refusal};

    pub fn lowers_alike(_: &[u32], _: &[u32], _: &[u32], _: &Outcome, _: &[u32]) {}
    pub fn settles_alike(_: &[u32], _: &[u32], _: &Outcome) {}
    pub fn frees_alike(_: &[u32], _: &[u32], _: &Result<Vec<u32>, Refusal>) {}
}
