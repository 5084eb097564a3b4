//! One case on both sides, and what differs.

use crate::case::{Call, Case, Five};
use crate::memory::{Contents, Dirt, Region};
use crate::sides::{Side, answer};
use crate::words;
use std::fmt;
use tulgarent::Answer;

/// What a call leaves behind.
#[derive(Debug, Clone, PartialEq, Eq)]
pub struct Outcome {
    pub answer: Answer,
    /// All of the output, untouched bytes too.
    pub output: Vec<u8>,
    pub counters: Vec<u8>,
}

/// An answer that was fixed before the call. What it does not name must stay as it was.
#[derive(Debug, Clone, PartialEq, Eq)]
pub struct Stated {
    pub answer: Answer,
    /// What the output begins with; no more than is lent, and none if the call refuses.
    pub words: Vec<u32>,
    /// The first counters after the call; no more than are lent, and none if the call refuses.
    pub counters: Vec<u32>,
}

impl Stated {
    /// What a call that keeps to it leaves behind.
    fn outcome(&self, contents: &Contents) -> Outcome {
        let over = |stated: &[u32], lent: &[u8]| {
            let stated = words::bytes(stated);
            [&stated, &lent[stated.len()..]].concat()
        };
        Outcome {
            answer: self.answer,
            output: over(&self.words, contents.output),
            counters: over(&self.counters, &contents.counters),
        }
    }
}

#[derive(Debug, Clone, PartialEq, Eq)]
pub enum Difference {
    /// Number, place or counts.
    Answer,
    /// The first byte of the output that differs, written or not.
    Output(usize),
    /// The first byte of the counters that differs.
    Counters(usize),
    /// A slice that is only read was changed.
    Changed(&'static str),
    /// Something was written outside of this slice.
    Outside(&'static str),
}

impl fmt::Display for Difference {
    fn fmt(&self, f: &mut fmt::Formatter<'_>) -> fmt::Result {
        match self {
            Difference::Answer => write!(f, "number, place or counts"),
            Difference::Output(byte) => write!(f, "word {} of the output", byte / 4),
            Difference::Counters(byte) => write!(f, "counter {}", byte / 4),
            Difference::Changed(slice) => write!(f, "the {slice} was changed"),
            Difference::Outside(slice) => write!(f, "bytes around the {slice} were changed"),
        }
    }
}

/// Runs cases; keeps its memory from one to the next.
pub struct Bench {
    dirt: Dirt,
    regions: Five<Region>,
}

impl Bench {
    pub fn new() -> Bench {
        Bench { dirt: Dirt::new(), regions: Five::default() }
    }

    /// What the Rust gives, and what differs on the other side.
    pub fn compare(&mut self, side: &dyn Side, case: &Case) -> (Outcome, Option<Difference>) {
        let Bench { dirt, regions } = self;
        let contents = dirt.contents(case);
        let expected = reference(case, &contents);
        lay_out(regions, case, &contents);
        let answer = run(side, case.call, regions);
        let difference = difference(&expected, answer, regions, &contents);
        (expected, difference)
    }

    /// What the Rust gives.
    pub fn expected(&self, case: &Case) -> Outcome {
        reference(case, &self.dirt.contents(case))
    }

    /// What the other side gives.
    pub fn found(&mut self, side: &dyn Side, case: &Case) -> Outcome {
        let Bench { dirt, regions } = self;
        lay_out(regions, case, &dirt.contents(case));
        let answer = run(side, case.call, regions);
        left_behind(answer, regions)
    }

    /// What the other side gives, and what of it is not as stated. The Rust is not asked.
    pub fn against(&mut self, side: &dyn Side, case: &Case, stated: &Stated) -> (Outcome, Option<Difference>) {
        let Bench { dirt, regions } = self;
        let contents = dirt.contents(case);
        lay_out(regions, case, &contents);
        let answer = run(side, case.call, regions);
        let difference = difference(&stated.outcome(&contents), answer, regions, &contents);
        (left_behind(answer, regions), difference)
    }
}

impl Default for Bench {
    fn default() -> Bench {
        Bench::new()
    }
}

/// The Rust is safe code and works in no scratch: it needs no guards, and is lent scratch as it stands.
fn reference(case: &Case, contents: &Contents) -> Outcome {
    let mut output = contents.output.to_vec();
    let mut counters = contents.counters.clone();
    let given = match case.call {
        Call::Lower => {
            oracle::lower_bytes(&contents.signature, &contents.rule, &mut counters, &mut output, contents.scratch.len())
        }
        Call::Settle => oracle::settle_bytes(&contents.signature, &contents.rule, &mut output, contents.scratch.len()),
        Call::FreeVars => oracle::free_vars_bytes(&contents.signature, &contents.rule, &mut output),
    };
    Outcome { answer: answer!(given), output, counters }
}

fn lay_out(regions: &mut Five<Region>, case: &Case, contents: &Contents) {
    let offsets = &case.offsets;
    regions.signature.hold(offsets.signature, &contents.signature);
    regions.rule.hold(offsets.rule, &contents.rule);
    regions.counters.hold(offsets.counters, &contents.counters);
    regions.output.hold(offsets.output, contents.output);
    regions.scratch.hold(offsets.scratch, contents.scratch);
}

fn run(side: &dyn Side, call: Call, regions: &mut Five<Region>) -> Answer {
    let Five { signature, rule, counters, output, scratch } = regions;
    let (signature, rule) = (signature.slice(), rule.slice());
    match call {
        Call::Lower => side.lower(signature, rule, counters.slice_mut(), output.slice_mut(), scratch.slice_mut()),
        Call::Settle => side.settle(signature, rule, output.slice_mut(), scratch.slice_mut()),
        Call::FreeVars => side.free_vars(signature, rule, output.slice_mut()),
    }
}

fn left_behind(answer: Answer, regions: &Five<Region>) -> Outcome {
    Outcome { answer, output: regions.output.slice().to_vec(), counters: regions.counters.slice().to_vec() }
}

fn difference(expected: &Outcome, answer: Answer, regions: &Five<Region>, contents: &Contents) -> Option<Difference> {
    let Five { signature, rule, counters, output, scratch } = regions;
    let around =
        [("signature", signature), ("rule", rule), ("counters", counters), ("output", output), ("scratch", scratch)];
    if let Some((slice, _)) = around.into_iter().find(|(_, region)| !region.guards_hold()) {
        Some(Difference::Outside(slice))
    } else if signature.slice() != contents.signature {
        Some(Difference::Changed("signature"))
    } else if rule.slice() != contents.rule {
        Some(Difference::Changed("rule"))
    } else if answer != expected.answer {
        Some(Difference::Answer)
    } else if let Some(byte) = first_unlike(&expected.output, output.slice()) {
        Some(Difference::Output(byte))
    } else {
        first_unlike(&expected.counters, counters.slice()).map(Difference::Counters)
    }
}

/// The slices have one length.
fn first_unlike(left: &[u8], right: &[u8]) -> Option<usize> {
    if left == right { None } else { left.iter().zip(right).position(|(left, right)| left != right) }
}

#[cfg(test)]
mod tests {
    use super::{Bench, Difference};
    use crate::case::{Call, Case};
    use crate::records::Signature;
    use crate::tampering::{Left, Tampering};
    use crate::words::{COUNTS, call, header};

    /// A rule of one call, with a counter to spare; the call is accepted with 3 words.
    fn case(counter: u32) -> Case {
        let rule = vec![header(1, 0), call(1, 0)];
        let counters = vec![0, counter, 0, 0, 9];
        Case { counters, ..Case::new(Call::Lower, Signature::trial().words(), rule) }
    }

    fn difference(case: &Case, tamper: fn(&mut Left)) -> Option<Difference> {
        Bench::new().compare(&Tampering(tamper), case).1
    }

    #[test]
    fn every_part_of_an_answer_is_compared() {
        assert_eq!(difference(&case(0), |_| ()), None);
        assert_eq!(difference(&case(0), |left| left.answer.words += 1), Some(Difference::Answer));
        assert_eq!(difference(&case(0), |left| left.answer.replacements += 1), Some(Difference::Answer));
        assert_eq!(difference(&case(0), |left| left.answer.passes += 1), Some(Difference::Answer));
        assert_eq!(difference(&case(COUNTS), |left| left.answer.number = 8), Some(Difference::Answer));
        assert_eq!(difference(&case(COUNTS), |left| left.answer.place += 1), Some(Difference::Answer));
    }

    #[test]
    fn every_byte_is_compared() {
        assert_eq!(difference(&case(0), |left| left.output[11] ^= 1), Some(Difference::Output(11)));
        assert_eq!(difference(&case(0), |left| left.output[12] ^= 1), Some(Difference::Output(12)), "past the words");
        assert_eq!(difference(&case(0), |left| left.counters[6] ^= 1), Some(Difference::Counters(6)));
        assert_eq!(
            difference(&case(0), |left| left.counters[16] ^= 1),
            Some(Difference::Counters(16)),
            "past the heads"
        );
        assert_eq!(difference(&case(COUNTS), |left| left.output[0] ^= 1), Some(Difference::Output(0)), "refused");
        assert_eq!(difference(&case(COUNTS), |left| left.counters[4] ^= 1), Some(Difference::Counters(4)), "refused");
    }
}
