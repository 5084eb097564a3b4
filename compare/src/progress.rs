//! A line now and then, so that whoever waits sees that something goes on.

use std::time::{Duration, Instant};

/// No line comes sooner than this after the one before.
const SAY_EVERY: Duration = Duration::from_secs(5);
/// The clock is asked once in so many steps only: it costs about as much as a small case.
const ASK_EVERY: u64 = 64;

pub struct Progress {
    started: Instant,
    said: Instant,
    pub steps: u64,
}

impl Progress {
    pub fn new() -> Progress {
        Progress { started: Instant::now(), said: Instant::now(), steps: 0 }
    }

    /// One step more. If it is time for a line, it is what `line` gives for the steps so far.
    pub fn step(&mut self, line: impl FnOnce(u64) -> String) {
        self.steps += 1;
        if !self.steps.is_multiple_of(ASK_EVERY) || self.said.elapsed() < SAY_EVERY {
            return;
        }
        self.said = Instant::now();
        eprintln!("{} s: {}", self.started.elapsed().as_secs(), line(self.steps));
    }
}

impl Default for Progress {
    fn default() -> Progress {
        Progress::new()
    }
}
