//! The three calls as the key service makes them: byte slices, four bytes a word, lowest byte first, every test of
//! document 01 in its order.

use crate::calls::{Lowered, freed, lowered, settled};
use crate::refusal::{Cause, Refusal};
use crate::signature::Signature;
use crate::words::SCRATCH_WORDS;

/// Bytes in a word.
const WORD: usize = size_of::<u32>();

/// What a call returns. Number 0 is acceptance; a refusal has no counts.
#[derive(Debug, Clone, Copy, PartialEq, Eq, Default)]
pub struct Answer {
    pub number: u64,
    pub place: u64,
    pub words: u64,
    pub replacements: u64,
    pub passes: u64,
}

impl Answer {
    fn accepted(words: usize, replacements: usize, passes: usize) -> Answer {
        Answer { words: words as u64, replacements: replacements as u64, passes: passes as u64, ..Answer::default() }
    }
}

impl From<Refusal> for Answer {
    fn from(refusal: Refusal) -> Answer {
        Answer { number: refusal.number, place: refusal.place, ..Answer::default() }
    }
}

/// Scratch is lent by its length alone: nothing here works in it.
pub fn lower_bytes(
    signature: &[u8],
    rule: &[u8],
    counters: &mut [u8],
    output: &mut [u8],
    scratch_len_bytes: usize,
) -> Answer {
    lower_or_refuse(signature, rule, counters, output, scratch_len_bytes).unwrap_or_else(Answer::from)
}

pub fn settle_bytes(signature: &[u8], rule: &[u8], output: &mut [u8], scratch_len_bytes: usize) -> Answer {
    settle_or_refuse(signature, rule, output, scratch_len_bytes).unwrap_or_else(Answer::from)
}

pub fn free_vars_bytes(signature: &[u8], rule: &[u8], output: &mut [u8]) -> Answer {
    free_vars_or_refuse(signature, rule, output).unwrap_or_else(Answer::from)
}

fn lower_or_refuse(
    signature: &[u8],
    rule: &[u8],
    counters: &mut [u8],
    output: &mut [u8],
    scratch: usize,
) -> Result<Answer, Refusal> {
    ask_whole(&[signature.len(), rule.len(), counters.len(), output.len(), scratch])?;
    let signature = Signature::read(&words(signature))?;
    signature.ask_counters(counters.len() / WORD)?;
    ask_scratch(scratch)?;
    let (lowered, after) = lowered(&signature, &words(rule), &words(counters))?;
    let answer = put_lowered(output, &lowered)?;
    put(counters, &after);
    Ok(answer)
}

fn settle_or_refuse(signature: &[u8], rule: &[u8], output: &mut [u8], scratch: usize) -> Result<Answer, Refusal> {
    ask_whole(&[signature.len(), rule.len(), output.len(), scratch])?;
    let signature = Signature::read(&words(signature))?;
    ask_scratch(scratch)?;
    put_lowered(output, &settled(&signature, &words(rule))?)
}

fn free_vars_or_refuse(signature: &[u8], rule: &[u8], output: &mut [u8]) -> Result<Answer, Refusal> {
    ask_whole(&[signature.len(), rule.len(), output.len()])?;
    let signature = Signature::read(&words(signature))?;
    let variables = freed(&signature, &words(rule))?;
    ask_output(output, variables.len())?;
    put(output, &variables);
    Ok(Answer::accepted(variables.len(), 0, 0))
}

fn ask_whole(lengths: &[usize]) -> Result<(), Refusal> {
    if lengths.iter().all(|length| length % WORD == 0) { Ok(()) } else { Err(Cause::Ragged.at(0)) }
}

fn ask_scratch(scratch: usize) -> Result<(), Refusal> {
    if scratch / WORD < SCRATCH_WORDS { Err(Cause::Scratch.at(0)) } else { Ok(()) }
}

fn ask_output(output: &[u8], needed: usize) -> Result<(), Refusal> {
    if output.len() / WORD < needed { Err(Cause::Output.at(needed)) } else { Ok(()) }
}

fn put_lowered(output: &mut [u8], lowered: &Lowered) -> Result<Answer, Refusal> {
    ask_output(output, lowered.words.len())?;
    put(output, &lowered.words);
    Ok(Answer::accepted(lowered.words.len(), lowered.replacements, lowered.passes))
}

fn words(bytes: &[u8]) -> Vec<u32> {
    bytes.as_chunks().0.iter().map(|word| u32::from_le_bytes(*word)).collect()
}

/// The slice is long enough; what is past the words stays.
fn put(bytes: &mut [u8], words: &[u32]) {
    for (place, word) in bytes.chunks_exact_mut(WORD).zip(words) {
        place.copy_from_slice(&word.to_le_bytes());
    }
}
