//! An input as a case, and a case as an input.
//!
//! The front of an input, of fixed length, says which call is made and what is lent. Behind it signature, counters and rule
//! are either spelt, so that they are well formed whatever the bytes (`speller`), or listed word by word (`codes`), so that
//! every case has an input.

use crate::codes::{read_counter, read_word, write_counter, write_word};
use crate::reader::Reader;
use crate::speller;
use compare::case::{Call, Case, Five};
use compare::trial::Bench;
use compare::words::SCRATCH_WORDS;

/// Set in the first byte where records are listed.
const LISTED: u8 = 4;
/// How much output or scratch can be lent: what there is dirt for.
const MOST_LENT: usize = SCRATCH_WORDS + 60;

/// Output lent: enough, so many words, or as many as the result has, or one more or less.
const ENOUGH: u8 = 0;
const SO_MANY: u8 = 2;
const AROUND: u8 = 3;

/// Modes of scratch from here on lend so many words, those below what the call asks for.
const OTHER_SCRATCH: u8 = 0xe0;
/// What the high bits of the number on ragged slices are if there are any: most inputs have none.
const RAGGED: u16 = 0x3f;

/// The records of a case.
pub struct Records {
    pub signature: Vec<u32>,
    pub counters: Vec<u32>,
    pub rule: Vec<u32>,
}

/// The case of any bytes. The bench is asked how long a result is, where output is lent around that.
pub fn case_of(input: &[u8], bench: &Bench) -> Case {
    let mut from = Reader::new(input);
    let first = from.byte();
    let call = [Call::Lower, Call::Settle, Call::FreeVars, Call::Lower][usize::from(first % 4)];
    let (output_mode, output) = (from.byte(), from.small());
    let (scratch_mode, scratch) = (from.byte(), from.small());
    let (ragged, offsets, dirt) = (from.small(), from.small(), from.word());
    let records = if first & LISTED == 0 { speller::spell(call, &mut from) } else { listed(&mut from) };
    let mut case = Case::new(call, records.signature, records.rule);
    case.counters = records.counters;
    case.output = case.output.min(MOST_LENT);
    case.offsets = five(offsets, 8);
    case.dirt = dirt;
    if scratch_mode >= OTHER_SCRATCH {
        case.scratch = usize::from(scratch) % MOST_LENT;
    }
    match output_mode % 4 {
        SO_MANY => case.output = usize::from(output) % MOST_LENT,
        AROUND => case.output = around(bench.expected(&case).answer.words, output),
        _ => (),
    }
    if ragged >> 10 == RAGGED {
        case.ragged = five(ragged % 1_024, 4);
    }
    case
}

/// Five numbers below `limit`, from one.
fn five(number: u16, limit: u16) -> Five<u8> {
    let mut left = number;
    let mut next = || {
        let digit = left % limit;
        left /= limit;
        digit as u8
    };
    Five { signature: next(), rule: next(), counters: next(), output: next(), scratch: next() }
}

/// One less than so many words, as many, or one more.
fn around(words: u64, choice: u16) -> usize {
    (words as usize + usize::from(choice % 3)).saturating_sub(1)
}

fn listed(from: &mut Reader) -> Records {
    let signature = list(from, read_word);
    let counters = list(from, read_counter);
    let mut rule = Vec::new();
    while !from.is_empty() {
        rule.push(read_word(from));
    }
    Records { signature, counters, rule }
}

/// As many as the number in front says, or as there are.
fn list(from: &mut Reader, read: fn(&mut Reader) -> u32) -> Vec<u32> {
    let count = from.small();
    (0..count).map_while(|_| (!from.is_empty()).then(|| read(from))).collect()
}

/// An input whose case this is.
pub fn input_of(case: &Case) -> Vec<u8> {
    let ample = Case::new(case.call, Vec::new(), case.rule.clone()).output;
    let output_mode = if case.output == ample { ENOUGH } else { SO_MANY };
    let ragged = if case.ragged == Five::default() { 0 } else { RAGGED << 10 | one(&case.ragged, 4) };
    let mut input = vec![case.call as u8 | LISTED, output_mode];
    input.extend((case.output as u16).to_le_bytes());
    input.push(OTHER_SCRATCH);
    input.extend((case.scratch as u16).to_le_bytes());
    input.extend(ragged.to_le_bytes());
    input.extend(one(&case.offsets, 8).to_le_bytes());
    input.extend(case.dirt.to_le_bytes());
    write_list(&case.signature, write_word, &mut input);
    write_list(&case.counters, write_counter, &mut input);
    case.rule.iter().for_each(|&word| write_word(word, &mut input));
    input
}

/// One number of five below `limit`.
fn one(numbers: &Five<u8>, limit: u16) -> u16 {
    let Five { signature, rule, counters, output, scratch } = *numbers;
    [scratch, output, counters, rule, signature].iter().fold(0, |sum, &digit| sum * limit + u16::from(digit))
}

fn write_list(list: &[u32], write: fn(u32, &mut Vec<u8>), to: &mut Vec<u8>) {
    to.extend((list.len() as u16).to_le_bytes());
    list.iter().for_each(|&item| write(item, to));
}

#[cfg(test)]
mod tests {
    use super::{case_of, input_of};
    use compare::draw::Draw;
    use compare::kinds::KINDS;
    use compare::trial::Bench;

    #[test]
    fn every_case_has_an_input() {
        let bench = Bench::new();
        for kind in KINDS {
            for case in (0..60).filter_map(|index| kind.case(5, index)) {
                assert_eq!(case_of(&input_of(&case), &bench), case, "{}", kind.name);
            }
        }
    }

    /// Most spelt rules are well formed: what is refused is refused for what its names mean, or for what is lent.
    #[test]
    fn any_bytes_are_a_case() {
        let bench = Bench::new();
        let mut accepted = 0;
        for index in 0..2_000 {
            let mut draw = Draw::of_case(1, "input", index);
            let mut input: Vec<u8> = (0..draw.between(0, 200)).map(|_| draw.word() as u8).collect();
            if let Some(first) = input.first_mut() {
                *first &= 3;
            }
            accepted += u32::from(bench.expected(&case_of(&input, &bench)).answer.number == 0);
        }
        assert!(accepted > 400, "{accepted} of 2,000");
    }
}
