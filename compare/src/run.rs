//! Runs all cases of all kinds, and stops at the first difference.

use crate::case::{Call, Case};
use crate::figures::Figures;
use crate::interrupt;
use crate::kinds::{Extent, KINDS, Kind};
use crate::progress::Progress;
use crate::report::grouped;
use crate::shrink::{Shrunk, shrink};
use crate::sides::Side;
use crate::trial::{Bench, Difference, Outcome};
use crate::words::{hex, words_of};
use std::cell::Cell;
use std::fmt;
use std::ops::ControlFlow;
use std::time::{Duration, Instant};
use tulgarent::Answer;

/// How long a difference is shrunk at most.
pub const PATIENCE: Duration = Duration::from_secs(60);

/// Why a run ended before its last case.
pub enum Stop {
    Differed(Box<Failure>),
    Interrupted,
}

/// A case on which the sides differ.
pub struct Failure {
    pub seed: u64,
    pub kind: &'static str,
    pub index: u64,
    pub case: Case,
    pub difference: Difference,
}

/// A side beside the Rust, with the memory that both work in.
pub struct Run<'a> {
    bench: Bench,
    side: &'a dyn Side,
    seed: u64,
    /// Names each case before it is run: a side that ends the process can't be asked afterwards.
    pub announce: bool,
    /// Asked after each case.
    interrupted: fn() -> bool,
}

impl<'a> Run<'a> {
    pub fn new(side: &'a dyn Side, seed: u64) -> Run<'a> {
        Run { bench: Bench::new(), side, seed, announce: false, interrupted: interrupt::asked }
    }

    /// All kinds, into these figures, up to the first failure.
    pub fn all(&mut self, extent: Extent, figures: &mut Figures) -> Result<(), Stop> {
        let mut progress = Progress::new();
        KINDS.iter().try_for_each(|kind| self.kind(kind, extent, figures, &mut progress))
    }

    fn kind(
        &mut self,
        kind: &'static Kind,
        extent: Extent,
        figures: &mut Figures,
        progress: &mut Progress,
    ) -> Result<(), Stop> {
        figures.begin(kind.name);
        let witness = Witness { kind: kind.name, seed: self.seed, index: Cell::new(0) };
        let started = Instant::now();
        let mut stop = None;
        let _ = kind.each(self.seed, extent, &mut |index, case| {
            witness.index.set(index);
            stop = match self.case(kind.name, index, case) {
                Ok((case, answer)) => {
                    let cases = figures.count(&case, &answer);
                    progress.step(|all| format!("{} cases, {} of them {}", grouped(all), grouped(cases), kind.name));
                    (self.interrupted)().then_some(Stop::Interrupted)
                }
                Err(failure) => Some(Stop::Differed(failure)),
            };
            if stop.is_none() { ControlFlow::Continue(()) } else { ControlFlow::Break(()) }
        });
        figures.end(started.elapsed());
        stop.map_or(Ok(()), Err)
    }

    /// The case and its answer, if the sides agree on it.
    fn case(&mut self, kind: &'static str, index: u64, case: Case) -> Result<(Case, Answer), Box<Failure>> {
        if self.announce {
            eprintln!("{kind} {index}");
        }
        match self.bench.compare(self.side, &case) {
            (expected, None) => Ok((case, expected.answer)),
            (_, Some(difference)) => Err(Box::new(Failure { seed: self.seed, kind, index, case, difference })),
        }
    }

    /// The first failure of a kind, if so many cases suffice to find one.
    pub fn first_failure(&mut self, kind: &'static Kind, most: u64) -> Option<Box<Failure>> {
        let mut failure = None;
        let _ = kind.each(self.seed, Extent::Quick, &mut |index, case| {
            failure = self.case(kind.name, index, case).err();
            let over = failure.is_some() || index + 1 >= most;
            if over { ControlFlow::Break(()) } else { ControlFlow::Continue(()) }
        });
        failure
    }

    /// Shrinks a failure for so long at most, so that it can be told.
    pub fn told(&mut self, failure: Box<Failure>, patience: Duration) -> Finding {
        let Run { bench, side, .. } = self;
        let shrunk = shrink(failure.case.clone(), patience, &mut |case| bench.compare(*side, case).1.is_some());
        let (expected, difference) = bench.compare(*side, &shrunk.case);
        let found = bench.found(*side, &shrunk.case);
        // The smallest case is one that differed; the drawn one's difference stands in were it not to differ again.
        let difference = difference.unwrap_or_else(|| failure.difference.clone());
        Finding { drawn: failure, shrunk, difference, expected, found }
    }

    /// What both sides give, and the failure if they differ.
    pub fn both(&mut self, kind: &'static str, index: u64, case: &Case) -> (Outcome, Outcome, Option<Box<Failure>>) {
        let failure = self.case(kind, index, case.clone()).err();
        (self.bench.expected(case), self.bench.found(self.side, case), failure)
    }
}

/// Says which case it was if a side panics in it.
struct Witness {
    kind: &'static str,
    seed: u64,
    index: Cell<u64>,
}

impl Drop for Witness {
    fn drop(&mut self) {
        if std::thread::panicking() {
            eprintln!("in case {} {} of seed {}", self.kind, self.index.get(), self.seed);
        }
    }
}

/// A failure with the smallest case that was found for it, and what each side gives for that.
pub struct Finding {
    drawn: Box<Failure>,
    shrunk: Shrunk,
    difference: Difference,
    expected: Outcome,
    found: Outcome,
}

impl Finding {
    /// Words of the smallest case's rule.
    pub fn words(&self) -> usize {
        self.shrunk.case.rule.len()
    }

    /// Which case it was and how far it was shrunk, in two lines.
    pub fn in_short(&self) -> String {
        let Failure { seed, kind, index, case, difference } = &*self.drawn;
        let (tries, words) = (grouped(self.shrunk.tries), self.words());
        let smallest = if self.shrunk.smallest { "smallest case" } else { "smallest case so far" };
        format!(
            "seed {seed}, case {kind} {index} (a rule of {} words): {difference}\n\
             {smallest}, after {tries} tries (a rule of {words} words): {}",
            case.rule.len(),
            self.difference
        )
    }
}

impl fmt::Display for Finding {
    fn fmt(&self, f: &mut fmt::Formatter<'_>) -> fmt::Result {
        let smallest = &self.shrunk.case;
        writeln!(f, "{}\n{smallest}", self.in_short())?;
        writeln!(f, "  the Rust   {}", Shown(&self.expected, smallest.call))?;
        write!(f, "  this side  {}", Shown(&self.found, smallest.call))
    }
}

/// An outcome as the program would print it, with the counters.
pub struct Shown<'a>(pub &'a Outcome, pub Call);

impl fmt::Display for Shown<'_> {
    fn fmt(&self, f: &mut fmt::Formatter<'_>) -> fmt::Result {
        let Shown(Outcome { answer, output, counters }, call) = self;
        if answer.number == 0 {
            write!(f, "ok {} {} {}:", answer.words, answer.replacements, answer.passes)?;
            let written = output.len().min(4 * answer.words as usize);
            write!(f, " {}", hex(&words_of(&output[..written])))?;
        } else {
            write!(f, "refused {} {}", answer.number, answer.place)?;
        }
        if *call == Call::Lower {
            write!(f, "; counters {}", hex(&words_of(counters)))?;
        }
        Ok(())
    }
}

#[cfg(test)]
mod tests {
    use super::{Run, Stop};
    use crate::figures::Figures;
    use crate::kinds::Extent;
    use crate::sides::Archive;

    #[test]
    fn an_interrupted_run_keeps_its_figures() {
        let mut run = Run::new(&Archive, 1);
        run.interrupted = || true;
        let mut figures = Figures::new();
        assert!(matches!(run.all(Extent::Quick, &mut figures), Err(Stop::Interrupted)));
        assert_eq!(figures.kinds.iter().map(|kind| kind.cases).collect::<Vec<_>>(), [1]);
    }
}
