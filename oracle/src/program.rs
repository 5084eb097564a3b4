//! What the program lower prints for what it reads (13, then lower's own numbers).

use crate::calls::{Lowered, lower};
use crate::refusal::{Cause, Refusal};
use crate::signature::signature_length;
use crate::words::{NAMES, SIGNATURE_FRONT, WRITTEN_WORDS};
use std::fmt::Write;

/// Eight digits and a line feed.
const LINE_BYTES: usize = 9;
/// The longest signature and the longest rule.
const LINES: usize = SIGNATURE_FRONT + NAMES as usize + WRITTEN_WORDS;

/// The whole of standard output for the whole of standard input.
pub fn program(input: &[u8]) -> String {
    match read_lines(input).and_then(|words| lower_list(&words)) {
        Ok(lowered) => accepted_text(&lowered),
        Err(refusal) => format!("refused {} {}\n", refusal.number, refusal.place),
    }
}

/// A good line has exactly nine bytes, so up to the first bad one lines are pieces of nine; there it ends.
fn read_lines(input: &[u8]) -> Result<Vec<u32>, Refusal> {
    let lines = input.chunks(LINE_BYTES).enumerate();
    lines.map(|(index, line)| word_of(line).filter(|_| index < LINES).ok_or(Cause::Line.at(index + 1))).collect()
}

fn word_of(line: &[u8]) -> Option<u32> {
    let [digits @ .., b'\n'] = line else { return None };
    if digits.len() != LINE_BYTES - 1 {
        return None;
    }
    digits.iter().try_fold(0, |word, &digit| Some(word * 16 + digit_of(digit)?))
}

fn digit_of(byte: u8) -> Option<u32> {
    match byte {
        b'0'..=b'9' => Some(u32::from(byte - b'0')),
        b'a'..=b'f' => Some(u32::from(byte - b'a') + 10),
        _ => None,
    }
}

/// Signature, then rule; all of it is signature if its length can't be had. Counters are at zero. The output of 16,384
/// words holds any result of the longest rule, so 10 is not tested.
fn lower_list(words: &[u32]) -> Result<Lowered, Refusal> {
    let length = signature_length(words).map_or(words.len(), |length| length.min(words.len()));
    let (signature, rule) = words.split_at(length);
    lower(signature, rule, &mut [0; NAMES as usize])
}

fn accepted_text(lowered: &Lowered) -> String {
    let mut text = format!("ok {} {} {}\n", lowered.words.len(), lowered.replacements, lowered.passes);
    for word in &lowered.words {
        writeln!(text, "{word:08x}").expect("a string takes all that is written");
    }
    text
}
