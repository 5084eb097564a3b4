//! One input on both sides. A difference ends the process, so that libFuzzer keeps the input.

use crate::input::case_of;
use compare::case::Case;
use compare::figures::{Tally, of_calls};
use compare::report::{by_call, opening};
use compare::run::{Failure, PATIENCE, Run};
use compare::sides::{Archive, Side};
use compare::trial::{Bench, Difference};
use compare::wrong;
use std::env;
use std::panic::{AssertUnwindSafe, catch_unwind};
use std::process::abort;
use std::sync::{LazyLock, Mutex, PoisonError};
use std::time::Instant;

/// Names a wrong copy of the Rust to stand in the archive's place.
const WRONG_VARIABLE: &str = "TULGARENT_WRONG";

struct Target {
    bench: Bench,
    /// For each call.
    tallies: [Tally; 3],
    started: Instant,
}

// libFuzzer runs one input at a time; the lock is for the compiler.
static TARGET: LazyLock<Mutex<Target>> =
    LazyLock::new(|| Mutex::new(Target { bench: Bench::new(), tallies: of_calls(), started: Instant::now() }));

/// Runs the case of these bytes on both sides. Does not return if they differ, or if one panics.
pub fn run(input: &[u8]) {
    let mut target = TARGET.lock().unwrap_or_else(PoisonError::into_inner);
    let Target { bench, tallies, .. } = &mut *target;
    let case = case_of(input, bench);
    match catch_unwind(AssertUnwindSafe(|| bench.compare(side(), &case))) {
        Ok((expected, None)) => tallies[case.call as usize].count(&case, &expected.answer),
        Ok((_, Some(difference))) => differ(case, difference),
        Err(_) => {
            eprintln!("PANIC in\n{case}");
            abort()
        }
    }
}

fn side() -> &'static dyn Side {
    static WRONG: LazyLock<Option<String>> = LazyLock::new(|| env::var(WRONG_VARIABLE).ok());
    match WRONG.as_deref() {
        None => &Archive,
        Some(name) => wrong::named(name).unwrap_or_else(|| panic!("no wrong copy is called {name}")),
    }
}

/// Prints the case, then a smallest one of its sort.
fn differ(case: Case, difference: Difference) -> ! {
    eprintln!("DIFFERENCE: {difference}\n{case}");
    let failure = Failure { seed: 0, kind: "fuzz", index: 0, case, difference };
    eprintln!("{}", Run::new(side(), 0).told(Box::new(failure), PATIENCE));
    abort()
}

/// What the inputs came to. It runs at the process's end, which a difference does not let it reach.
pub fn report() {
    let target = TARGET.lock().unwrap_or_else(PoisonError::into_inner);
    let cases = target.tallies.iter().map(|tally| tally.cases).sum();
    // Chance is libFuzzer's here: its first lines tell its seed.
    eprintln!("{}", opening("Fuzz run", "", cases, target.started.elapsed(), "no difference"));
    // Floors are compare's own: nobody can say how far a fuzzer comes in its time.
    eprintln!("{}", by_call(&target.tallies, false));
}
