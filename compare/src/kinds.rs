//! The kinds of cases, each aimed at a point of document 01.

mod far_merges;
mod flat;
mod free_rows;
mod growing;
mod late_faults;
mod listed;
mod long_heads;
mod loops;
mod outputs;
mod settling;
mod turned_back;
mod written;

use crate::case::Case;
use crate::draw::Draw;
use std::ops::ControlFlow;

/// How many cases a run makes.
#[derive(Debug, Clone, Copy, PartialEq, Eq)]
pub enum Extent {
    /// For the gate.
    Quick,
    /// For the record in docs.
    Long,
}

pub struct Kind {
    pub name: &'static str,
    pub what: &'static str,
    source: Source,
}

enum Source {
    /// Case by case by chance; how many in a quick and in a long run.
    Drawn { draw: fn(&mut Draw) -> Case, quick: u64, long: u64 },
    /// All there are; up to which size in a quick and in a long run.
    Listed { each: fn(usize, &mut Visit) -> ControlFlow<()>, quick: usize, long: usize },
}

type Visit<'a> = dyn FnMut(Case) -> ControlFlow<()> + 'a;

const fn drawn(name: &'static str, what: &'static str, draw: fn(&mut Draw) -> Case, quick: u64, long: u64) -> Kind {
    Kind { name, what, source: Source::Drawn { draw, quick, long } }
}

const fn listed(
    name: &'static str,
    what: &'static str,
    each: fn(usize, &mut Visit) -> ControlFlow<()>,
    quick: usize,
    long: usize,
) -> Kind {
    Kind { name, what, source: Source::Listed { each, quick, long } }
}

pub const KINDS: &[Kind] = &[
    listed("trials", "P1 to P13, and a smallest record for each refusal", listed::trials, 0, 0),
    listed("short-written", "every well-formed written rule over a small alphabet", listed::short_written, 6, 8),
    listed("short-flat", "every well-formed flat rule over a small alphabet", listed::short_flat, 7, 9),
    listed("short-any", "every list of words over a small alphabet", listed::short_any, 4, 5),
    drawn("written", "written rules of up to 80 words", written::written, 400_000, 5_000_000),
    drawn("written-long", "written rules of 60 to 512 words", written::written_long, 6_000, 60_000),
    drawn("written-limits", "written rules around each limit", written::written_limits, 20_000, 200_000),
    drawn("counters", "counters near 65,536", written::counters, 60_000, 600_000),
    drawn("cascades", "merges that bring on merges, written and flat", settling::cascades, 20_000, 200_000),
    drawn("growing", "rules whose results are long, up to the longest", growing::growing, 20_000, 200_000),
    drawn("value-eq", "value-eq written by users, beside that of settling", settling::value_eq, 60_000, 600_000),
    drawn("globals", "lets and uses of globals", settling::globals, 60_000, 600_000),
    drawn("flat", "flat rules of up to 100 words", flat::flat, 120_000, 1_200_000),
    drawn("flat-limits", "flat rules of up to 1,024 words, and around each limit", flat::flat_limits, 4_000, 40_000),
    drawn("lowered", "flat rules that lowering made, settled or not", flat::lowered, 60_000, 600_000),
    drawn("damaged", "good cases of all kinds, then damaged", turned_back::damaged, 120_000, 1_200_000),
    drawn("signatures", "signatures around each limit, and damaged ones", turned_back::signatures, 10_000, 100_000),
    drawn("slices", "slices just long enough, too short, or ragged", turned_back::slices, 60_000, 600_000),
    drawn("free-rows", "rows of up to 1,021 free variables, in every order", free_rows::free_rows, 8_000, 80_000),
    drawn("long-heads", "heads of as many actions as fit, or very wide ones", long_heads::long_heads, 6_000, 60_000),
    drawn("late-faults", "long rules with a fault near their end, or none", late_faults::late_faults, 10_000, 100_000),
    drawn("far-merges", "long bodies in which few atoms are alike", far_merges::far_merges, 6_000, 60_000),
    drawn("loops", "chains that lead back: as many passes as there can be", loops::loops, 300, 3_000),
    listed("short-outputs", "outputs of every length below the longest results", outputs::short_outputs, 2, 12),
    drawn("outputs", "long results, and less output than they ask for", outputs::outputs, 10_000, 100_000),
];

/// The list for programs that can't run the Rust is of the first kinds alone: those behind them are of long rules, which
/// would make the list several times as long.
pub const IN_REPLAY: usize = 18;

impl Kind {
    pub fn named(name: &str) -> Option<&'static Kind> {
        KINDS.iter().find(|kind| kind.name == name)
    }

    /// Visits the run's cases of this kind with their numbers. The seed fixes drawn ones, and where slices stand in all.
    pub fn each(
        &self,
        seed: u64,
        extent: Extent,
        visit: &mut dyn FnMut(u64, Case) -> ControlFlow<()>,
    ) -> ControlFlow<()> {
        match self.source {
            Source::Drawn { draw, quick, long } => {
                let count = if extent == Extent::Quick { quick } else { long };
                (0..count).try_for_each(|index| visit(index, self.laid_out(seed, index, draw)))
            }
            Source::Listed { each, quick, long } => {
                let mut index = 0;
                each(if extent == Extent::Quick { quick } else { long }, &mut |case| {
                    index += 1;
                    visit(index - 1, self.laid_out(seed, index - 1, |_| case))
                })
            }
        }
    }

    /// The case of this number, if there is one.
    pub fn case(&self, seed: u64, index: u64) -> Option<Case> {
        if let Source::Drawn { draw, .. } = self.source {
            return Some(self.laid_out(seed, index, draw));
        }
        let mut found = None;
        let _ = self.each(seed, Extent::Long, &mut |at, case| {
            if at < index {
                return ControlFlow::Continue(());
            }
            found = Some(case);
            ControlFlow::Break(())
        });
        found
    }

    /// How many cases a wrong copy is tried on: a fraction of a quick run's, or the first of a list.
    pub fn sample(&self) -> u64 {
        match self.source {
            Source::Drawn { quick, .. } => quick.div_ceil(32),
            Source::Listed { .. } => 6_000,
        }
    }

    fn laid_out(&self, seed: u64, index: u64, make: impl FnOnce(&mut Draw) -> Case) -> Case {
        let mut draw = Draw::of_case(seed, self.name, index);
        let mut case = make(&mut draw);
        case.lay_out(&mut draw);
        case
    }

    /// How many cases a quick run lists; nothing for a kind that is drawn, which has as many as are asked for.
    pub fn listed_count(&self) -> Option<u64> {
        let Source::Listed { each, quick, .. } = self.source else { return None };
        let mut count = 0;
        let _ = each(quick, &mut |_| {
            count += 1;
            ControlFlow::Continue(())
        });
        Some(count)
    }
}

#[cfg(test)]
mod tests {
    use super::{Extent, KINDS};
    use std::ops::ControlFlow;

    #[test]
    fn a_case_is_had_again_by_its_number() {
        for kind in KINDS {
            let _ = kind.each(7, Extent::Quick, &mut |index, case| {
                assert_eq!(kind.case(7, index), Some(case), "{} {index}", kind.name);
                if index < 40 { ControlFlow::Continue(()) } else { ControlFlow::Break(()) }
            });
        }
    }

    #[test]
    fn another_seed_gives_other_cases() {
        for kind in KINDS {
            assert_ne!(kind.case(1, 0), kind.case(2, 0), "{}", kind.name);
        }
    }
}
