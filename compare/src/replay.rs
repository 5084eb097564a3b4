//! A fixed list of cases with the Rust's answers, for programs that can't run the Rust. Behind it a few answers are
//! made wrong, so that such a program shows that it sees them.

use crate::case::{Call, Case};
use crate::kinds::{Extent, IN_REPLAY, KINDS, Kind};
use crate::report::grouped;
use crate::trial::{Bench, Outcome};
use crate::words::bytes;
use std::fs;
use std::io;
use std::ops::ControlFlow;
use std::path::Path;

/// The file's head is text of this many bytes, spaces at its end.
const HEAD_BYTES: usize = 2_048;

/// What the head says about where the answers come from.
const ORIGIN: &str = "\
The answers are those of egglog's own functions, which oracle/ runs on the same bytes;
nothing was taken from the library. The cases are of all kinds that compare/README.md
lists, about as many of each, so far as a kind has so many.
";

/// What the head says about all that follows it.
const FORMAT: &str = "\
After this text of 2,048 bytes all is 32-bit words, four bytes a word, lowest byte first.
First the number of cases, then each case as below. Behind them comes a second list like it:
cases of the first, each with its answer made wrong in one thing, which a comparison must
see. In their order: the number, the place, the words (one fewer), the replacements, the
passes, a byte of the output, a byte of the counters.

  word 0      how many words of the case follow this one
  word 1      the call: 1 lower, 2 settle, 3 free variables
  word 2..6   bytes lent: signature, rule, counters, output, scratch
  word 7..11  the answer: number, place, words, replacements, passes
  then the signature, the rule, the counters before the call,
  the words that the output begins with after it (as many as word 9 says),
  and the counters after it.

Signature, rule and counters have as many words as their bytes fill, the last one
padded with zero bytes where the bytes are not whole words. Only lower takes counters,
only lower and settle take scratch; what a call does not take is 0 bytes.
Output past the words written must be as it was before the call.
";

/// Makes one thing of an answer wrong, or says that it can't be done there.
type Mistake = fn(&mut Outcome) -> bool;

/// In the order that the head names.
const MISTAKES: [Mistake; 7] = [
    |outcome| outcome.answer.number > 0 && grown(&mut outcome.answer.number),
    |outcome| outcome.answer.number > 0 && grown(&mut outcome.answer.place),
    |outcome| outcome.answer.words.checked_sub(1).map(|fewer| outcome.answer.words = fewer).is_some(),
    |outcome| outcome.answer.words > 0 && grown(&mut outcome.answer.replacements),
    |outcome| outcome.answer.words > 0 && grown(&mut outcome.answer.passes),
    |outcome| flipped(outcome.output[..4 * outcome.answer.words as usize].last_mut()),
    |outcome| outcome.answer.words > 0 && flipped(outcome.counters.last_mut()),
];

fn grown(number: &mut u64) -> bool {
    *number += 1;
    true
}

fn flipped(byte: Option<&mut u8>) -> bool {
    byte.map(|byte| *byte ^= 1).is_some()
}

/// A case, and what the Rust gave or what was made of it.
type Answered<'a> = (&'a Case, Outcome);

/// A case is large from this many words on; of those, one in so many is taken.
const LARGE: usize = 1_200;
const LARGE_ONES: u64 = 16;

/// Writes `count` cases, or as many as there are, and returns their number.
pub fn write_replay(path: &Path, count: usize, seed: u64) -> io::Result<usize> {
    let cases = chosen(count, seed);
    fs::write(path, replay(&cases, count, seed))?;
    Ok(cases.len())
}

fn replay(cases: &[Case], count: usize, seed: u64) -> Vec<u8> {
    let bench = Bench::new();
    let answered: Vec<Answered> = cases.iter().map(|case| (case, bench.expected(case))).collect();
    let lists = [list_words(&answered), list_words(&made_wrong(&answered))].concat();
    [head(cases.len(), count, seed), bytes(&lists)].concat()
}

/// A case of lowering for each mistake, the first in which it can be made.
fn made_wrong<'a>(answered: &[Answered<'a>]) -> Vec<Answered<'a>> {
    let lowered = || answered.iter().filter(|(case, _)| case.call == Call::Lower).cloned();
    MISTAKES
        .iter()
        .filter_map(|mistake| {
            lowered().find_map(|(case, mut outcome)| mistake(&mut outcome).then_some((case, outcome)))
        })
        .collect()
}

fn list_words(answered: &[Answered]) -> Vec<u32> {
    let mut words = vec![answered.len() as u32];
    for (case, outcome) in answered {
        words.extend(case_words(case, outcome));
    }
    words
}

fn head(cases: usize, count: usize, seed: u64) -> Vec<u8> {
    let cases = grouped(cases as u64);
    let made = format!(
        "{cases} cases of the lowerer with the Rust's answers, made by\n\n  \
         compare --write-replay FILE {count} --seed {seed}\n\n{ORIGIN}\n"
    );
    let mut head = [made.as_bytes(), FORMAT.as_bytes()].concat();
    head.resize(HEAD_BYTES - 1, b' ');
    head.push(b'\n');
    head
}

/// From each kind about as many.
fn chosen(count: usize, seed: u64) -> Vec<Case> {
    let mut chosen = Vec::new();
    for (done, kind) in KINDS[..IN_REPLAY].iter().enumerate() {
        // What an earlier kind did not have is shared out among the later ones.
        let share = (count - chosen.len()).div_ceil(IN_REPLAY - done);
        chosen.extend(of_kind(kind, seed, share));
    }
    chosen
}

/// Listed cases are spread over the list, since it goes from small to large. Of drawn ones the first are as good as any.
fn of_kind(kind: &Kind, seed: u64, share: usize) -> Vec<Case> {
    let step = kind.listed_count().map_or(1, |count| (count / share.max(1) as u64).max(1));
    let mut cases = Vec::new();
    let _ = kind.each(seed, Extent::Quick, &mut |index, case| {
        if cases.len() == share {
            return ControlFlow::Break(());
        }
        let large = case.signature.len() + case.rule.len() >= LARGE;
        if index.is_multiple_of(if large { LARGE_ONES } else { step }) {
            cases.push(case);
        }
        ControlFlow::Continue(())
    });
    cases
}

fn case_words(case: &Case, expected: &Outcome) -> Vec<u32> {
    let lent = lent(case);
    let answer = &expected.answer;
    let counts = [answer.number, answer.place, answer.words, answer.replacements, answer.passes];
    let written = &expected.output[..4 * answer.words as usize];
    let (before, after) = if case.call == Call::Lower {
        (case.counters_bytes(), expected.counters.clone())
    } else {
        (Vec::new(), Vec::new())
    };
    let mut words = vec![call_number(case.call)];
    words.extend(lent.map(|bytes| bytes as u32));
    words.extend(counts.map(|count| count as u32));
    for part in [&case.signature_bytes(), &case.rule_bytes(), &before, written, &after] {
        words.extend(padded(part));
    }
    words.insert(0, words.len() as u32);
    words
}

fn call_number(call: Call) -> u32 {
    match call {
        Call::Lower => 1,
        Call::Settle => 2,
        Call::FreeVars => 3,
    }
}

fn lent(case: &Case) -> [usize; 5] {
    let lengths = case.lengths();
    let counters = if case.call == Call::Lower { lengths.counters } else { 0 };
    let scratch = if case.call == Call::FreeVars { 0 } else { lengths.scratch };
    [lengths.signature, lengths.rule, counters, lengths.output, scratch]
}

fn padded(bytes: &[u8]) -> Vec<u32> {
    bytes.chunks(4).map(|chunk| chunk.iter().rev().fold(0, |word, &byte| word << 8 | u32::from(byte))).collect()
}

#[cfg(test)]
mod tests {
    use super::{HEAD_BYTES, MISTAKES, chosen, replay};
    use crate::sides::{Archive, Side};
    use tulgarent::Answer;

    /// Reads the lists as their head says, and asks the archive.
    #[test]
    fn the_archive_gives_what_the_list_says_and_not_what_was_made_wrong() {
        let cases = chosen(300, 3);
        assert_eq!(cases.len(), 300);
        let list = replay(&cases, 300, 3);
        assert!(list[..HEAD_BYTES].is_ascii() && list[HEAD_BYTES - 1] == b'\n');
        let words: Vec<u32> = list[HEAD_BYTES..].as_chunks().0.iter().map(|word| u32::from_le_bytes(*word)).collect();
        let rest = replay_list(&words, 300, true);
        let rest = replay_list(rest, MISTAKES.len(), false);
        assert!(rest.is_empty());
    }

    fn replay_list(words: &[u32], count: usize, agrees: bool) -> &[u32] {
        assert_eq!(words[0], count as u32);
        let mut at = 1;
        for _ in 0..count {
            let length = words[at] as usize;
            assert_eq!(replay_one(&words[at + 1..at + 1 + length]), agrees);
            at += 1 + length;
        }
        &words[at..]
    }

    /// Whether the archive gives what the case has.
    fn replay_one(case: &[u32]) -> bool {
        let [signature, rule, counters, output, scratch] = std::array::from_fn(|slice| case[1 + slice] as usize);
        let number = |at: usize| u64::from(case[6 + at]);
        let expected = Answer {
            number: number(0),
            place: number(1),
            words: number(2),
            replacements: number(3),
            passes: number(4),
        };
        let mut rest = &case[11..];
        let mut take = |length: usize| {
            let (part, after) = rest.split_at(length.div_ceil(4));
            rest = after;
            crate::words::bytes(part)[..length].to_vec()
        };
        let (signature, rule, mut counters) = (take(signature), take(rule), take(counters));
        let (written, after) = (take(4 * expected.words as usize), take(counters.len()));
        assert!(rest.is_empty());
        let (mut output, mut scratch) = (vec![0xa5; output], vec![0x5a; scratch]);
        let answer = match case[0] {
            1 => Archive.lower(&signature, &rule, &mut counters, &mut output, &mut scratch),
            2 => Archive.settle(&signature, &rule, &mut output, &mut scratch),
            _ => Archive.free_vars(&signature, &rule, &mut output),
        };
        answer == expected
            && output[..written.len()] == written
            && output[written.len()..].iter().all(|&byte| byte == 0xa5)
            && counters == after
    }
}
