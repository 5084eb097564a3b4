//! Listed answers: a file of calls, each with the answer that it must give. The archive is held to them, and the Rust is not
//! asked: whoever wrote the file answers for it.

pub mod line;
mod shown;

use crate::case::Case;
use crate::draw::Draw;
use crate::memory::RUNS;
use crate::report::grouped;
use crate::sides::Side;
use crate::trial::{Bench, Difference, Outcome, Stated};
use line::{CALLS, Line, NotRun, Unread, name_of};
use shown::{ShownAnswer, ShownCase};
use std::collections::BTreeMap;
use std::fmt;

/// What a file holds.
#[derive(Default)]
pub struct List {
    answers: Vec<Listed>,
    /// How many lines are not run for each cause, in the order in which they are met.
    not_run: Vec<(NotRun, usize)>,
}

/// A call and what it must leave behind.
#[derive(Clone)]
struct Listed {
    /// Counted from 1.
    line: usize,
    case: Case,
    stated: Stated,
}

impl List {
    /// Reads a file's text. Empty lines and those that begin with `#` say nothing. The first line that can't be read is told
    /// with its number.
    pub fn read(text: &str) -> Result<List, (usize, Unread)> {
        let mut list = List::default();
        for (index, text) in text.split('\n').enumerate() {
            if text.is_empty() || text.starts_with('#') {
                continue;
            }
            let line = index + 1;
            match line::read(text).map_err(|unread| (line, unread))? {
                Line::Listed(case, stated) => list.answers.push(Listed { line, case, stated }),
                Line::NotRun(why) => list.leave_out(why),
            }
        }
        Ok(list)
    }

    fn leave_out(&mut self, why: NotRun) {
        match self.not_run.iter_mut().find(|(known, _)| *known == why) {
            Some((_, count)) => *count += 1,
            None => self.not_run.push((why, 1)),
        }
    }

    /// Whether no line says anything: then nothing is shown by a run without a difference.
    pub fn is_empty(&self) -> bool {
        self.answers.is_empty() && self.not_run.is_empty()
    }

    /// The causes for which lines are not run, a sentence each.
    pub fn not_run(&self) -> Vec<String> {
        self.not_run.iter().map(|(why, count)| why.told(*count)).collect()
    }

    /// Makes every call that is listed.
    pub fn run(&self, side: &dyn Side, seed: u64) -> Findings {
        let mut bench = Bench::new();
        let mut findings = Findings::default();
        for listed in &self.answers {
            findings.count(listed, listed.differs(&mut bench, side, seed));
        }
        findings
    }
}

impl Listed {
    /// Makes the call once with each kind of dirt in the output, since what a call writes and should not is seen only where
    /// something else stood before.
    fn differs(&self, bench: &mut Bench, side: &dyn Side, seed: u64) -> Option<(Outcome, Difference)> {
        let mut draw = Draw::of_case(seed, "listed answers", self.line as u64);
        (0..RUNS as u32).find_map(|kind| {
            let mut case = self.case.clone();
            case.lay_out(&mut draw);
            case.dirt = case.dirt - case.dirt % RUNS as u32 + kind;
            let (found, difference) = bench.against(side, &case, &self.stated);
            difference.map(|difference| (found, difference))
        })
    }
}

/// What differs. Bytes that nothing may write are looked at first, then the answer, the output and the counters; what is
/// found first is told, since the rest may follow from it.
#[derive(Debug, Clone, Copy, PartialEq, Eq, PartialOrd, Ord)]
enum Thing {
    Number,
    Place,
    Counts,
    Words,
    Counters,
    /// The inputs, what stands around the slices, output behind the words; on a refusal all of output and counters.
    Bytes,
}

impl fmt::Display for Thing {
    fn fmt(&self, f: &mut fmt::Formatter<'_>) -> fmt::Result {
        f.write_str(match self {
            Thing::Number => "number",
            Thing::Place => "place",
            Thing::Counts => "counts",
            Thing::Words => "words",
            Thing::Counters => "counters",
            Thing::Bytes => "bytes that must not change",
        })
    }
}

impl Thing {
    fn of(stated: &Stated, found: &Outcome, difference: &Difference) -> Thing {
        let accepted = stated.answer.number == 0;
        match difference {
            Difference::Answer if found.answer.number != stated.answer.number => Thing::Number,
            Difference::Answer if found.answer.place != stated.answer.place => Thing::Place,
            Difference::Answer => Thing::Counts,
            Difference::Output(byte) if *byte < 4 * stated.words.len() => Thing::Words,
            Difference::Counters(_) if accepted => Thing::Counters,
            Difference::Output(_) | Difference::Counters(_) => Thing::Bytes,
            Difference::Changed(_) | Difference::Outside(_) => Thing::Bytes,
        }
    }
}

/// How many differences are told in full.
const TOLD: usize = 10;

/// What a run came to.
#[derive(Default)]
pub struct Findings {
    /// Of each call, how many answers there are, and how many of them agree.
    calls: [(u64, u64); CALLS.len()],
    differ: BTreeMap<Thing, u64>,
    /// The first of them.
    pub told: Vec<Finding>,
}

impl Findings {
    fn count(&mut self, listed: &Listed, differs: Option<(Outcome, Difference)>) {
        let (all, agree) = &mut self.calls[listed.case.call as usize];
        *all += 1;
        let Some((found, difference)) = differs else {
            *agree += 1;
            return;
        };
        let thing = Thing::of(&listed.stated, &found, &difference);
        *self.differ.entry(thing).or_default() += 1;
        if self.told.len() < TOLD {
            self.told.push(Finding { listed: listed.clone(), found, difference, thing });
        }
    }

    pub fn agree(&self) -> bool {
        self.differ.is_empty()
    }

    /// The calls that were made, each with what is said of it.
    fn by_call(&self, said: fn(u64, u64) -> String) -> String {
        let made = CALLS.iter().zip(self.calls).filter(|(_, (all, _))| *all > 0);
        made.map(|((call, _), (all, agree))| format!("{} {}", name_of(*call), said(all, agree)))
            .collect::<Vec<_>>()
            .join(", ")
    }
}

impl fmt::Display for Findings {
    fn fmt(&self, f: &mut fmt::Formatter<'_>) -> fmt::Result {
        let all: u64 = self.calls.iter().map(|(all, _)| all).sum();
        if all == 0 {
            return write!(f, "no answer was compared");
        }
        write!(f, "{} answer{}, ", grouped(all), if all == 1 { "" } else { "s" })?;
        if self.agree() {
            return write!(f, "no difference ({})", self.by_call(|all, _| grouped(all)));
        }
        let things: Vec<String> =
            self.differ.iter().map(|(thing, count)| format!("{thing} {}", grouped(*count))).collect();
        let agree = self.by_call(|all, agree| format!("{} of {}", grouped(agree), grouped(all)));
        write!(f, "{} differ: {} (agree: {agree})", grouped(self.differ.values().sum()), things.join(", "))
    }
}

/// An answer that is not as listed.
pub struct Finding {
    listed: Listed,
    found: Outcome,
    difference: Difference,
    thing: Thing,
}

impl Finding {
    pub fn line(&self) -> usize {
        self.listed.line
    }
}

impl fmt::Display for Finding {
    fn fmt(&self, f: &mut fmt::Formatter<'_>) -> fmt::Result {
        let Finding { listed: Listed { case, stated, .. }, found, difference, thing } = self;
        write!(f, "{thing}")?;
        if *difference != Difference::Answer {
            write!(f, ", {difference}")?;
        }
        let refusal = if stated.answer.number > 0 { &stated.answer } else { &found.answer };
        writeln!(f, "\n  call      {}", ShownCase(case, refusal))?;
        writeln!(f, "  expected  {}", ShownAnswer::stated(case.call, stated, difference))?;
        write!(f, "  found     {}", ShownAnswer::found(case.call, found, difference))
    }
}

#[cfg(test)]
mod tests {
    use super::{CALLS, Findings, List, TOLD};
    use crate::floors::NUMBERS_OF;
    use crate::sides::{Archive, BodyCountsAfterArguments, EqualitiesBehind, ReplacesInActions, Side};
    use crate::tampering::{Left, Tampering};
    use std::collections::BTreeSet;

    const TRIALS: &str = include_str!("../vectors/trials.txt");
    const ACCEPTED: &str = "lower sig=01000001,01000000,01000000,01000000,01000002 room=4 counters=0,9 \
                            rule=04001000,10000000 scratch=16384 => ok 3 0 1 out=04001000,10000001,80000000 counters=1,9";
    const REFUSED: &str = "lower sig=01000001,01000000,01000000,01000000,01000002 room=4 counters=65536,9 \
                           rule=04001000,10000000 scratch=16384 => refused 9 1";

    fn list(text: &str) -> List {
        List::read(text).unwrap_or_else(|(line, unread)| panic!("line {line}: {unread}"))
    }

    fn run(text: &str, tamper: fn(&mut Left)) -> Findings {
        list(text).run(&Tampering(tamper), 1)
    }

    /// What is told of a line if the Rust's answer is spoilt in one thing.
    fn told(line: &str, tamper: fn(&mut Left)) -> String {
        run(line, tamper)
            .told
            .first()
            .map_or(String::new(), |finding| finding.to_string().lines().next().unwrap_or_default().to_owned())
    }

    #[test]
    fn every_part_of_an_answer_is_compared() {
        assert_eq!(told(ACCEPTED, |_| ()), "");
        assert_eq!(told(ACCEPTED, |left| left.answer.number = 5), "number");
        assert_eq!(told(ACCEPTED, |left| left.answer.place = 5), "place");
        assert_eq!(told(ACCEPTED, |left| left.answer.words -= 1), "counts");
        assert_eq!(told(ACCEPTED, |left| left.answer.replacements += 1), "counts");
        assert_eq!(told(ACCEPTED, |left| left.answer.passes += 1), "counts");
        assert_eq!(told(ACCEPTED, |left| left.output[11] ^= 1), "words, word 2 of the output");
        assert_eq!(told(ACCEPTED, |left| left.counters[0] ^= 1), "counters, counter 0");
        assert_eq!(told(ACCEPTED, |left| left.counters[4] ^= 1), "counters, counter 1");
        let behind = "bytes that must not change, word 3 of the output";
        assert_eq!(told(ACCEPTED, |left| left.output[15] = 0), behind);
        assert_eq!(told(ACCEPTED, |left| left.output[15] = 0xff), behind);
    }

    #[test]
    fn a_refusal_leaves_output_and_counters() {
        assert_eq!(told(REFUSED, |_| ()), "");
        assert_eq!(told(REFUSED, |left| left.answer.number = 7), "number");
        assert_eq!(told(REFUSED, |left| left.answer.place = 0), "place");
        assert_eq!(told(REFUSED, |left| left.answer.passes = 1), "counts");
        assert_eq!(told(REFUSED, |left| left.output[0] ^= 1), "bytes that must not change, word 0 of the output");
        assert_eq!(told(REFUSED, |left| left.counters[7] ^= 1), "bytes that must not change, counter 1");
    }

    #[test]
    fn differences_are_counted_by_what_differs() {
        let text = format!("# two lines\n\n{ACCEPTED}\n{REFUSED}\n");
        assert_eq!(run(&text, |_| ()).to_string(), "2 answers, no difference (lower 2)");
        let spoil: fn(&mut Left) = |left| left.answer.place += 1;
        assert_eq!(run(&text, spoil).to_string(), "2 answers, 2 differ: place 2 (agree: lower 0 of 2)");
        let findings = run(&text, |left| left.answer.number = left.answer.number.min(1));
        assert_eq!(findings.to_string(), "2 answers, 1 differ: number 1 (agree: lower 1 of 2)");
        assert_eq!(findings.told[0].line(), 4);
        let many = run(&format!("{REFUSED}\n").repeat(3 * TOLD), spoil);
        assert_eq!((many.told.len(), many.agree()), (TOLD, false));
        assert_eq!(many.to_string(), "30 answers, 30 differ: place 30 (agree: lower 0 of 30)");
    }

    #[test]
    fn a_difference_is_told_as_lines_are_written() {
        let findings =
            run(REFUSED, |left| left.answer = tulgarent::Answer { words: 2, passes: 1, ..Default::default() });
        let told = findings.told[0].to_string();
        let (call, _) = REFUSED.split_once(" => ").expect("it has an arrow");
        assert!(
            told.starts_with(&format!(
                "number\n  call      {call}\n  expected  refused 9 1\n  found     ok 2 0 1 out="
            ))
        );
        assert!(told.ends_with(" counters=65536,9"), "{told}");
    }

    #[test]
    fn the_trials_have_every_answer_of_each_call() {
        let list = list(TRIALS);
        assert_eq!(list.not_run(), [""; 0]);
        for (call, name) in CALLS {
            let of_call = list.answers.iter().filter(|listed| listed.case.call == call);
            let numbers: BTreeSet<usize> = of_call.map(|listed| listed.stated.answer.number as usize).collect();
            let all = NUMBERS_OF[call as usize].iter().copied().chain([0]).collect();
            assert_eq!(numbers, all, "{name}");
        }
    }

    /// The mistakes that 01 has seen in drafts are told by the answers that it lists.
    #[test]
    fn the_trials_tell_wrong_copies() {
        let list = list(TRIALS);
        assert!(list.run(&Archive, 2).agree());
        let wrong: [&dyn Side; 3] = [&ReplacesInActions, &BodyCountsAfterArguments, &EqualitiesBehind];
        assert!(wrong.iter().all(|side| !list.run(*side, 2).agree()));
    }
}
