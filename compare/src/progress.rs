//! Says on standard error how far a run is.

use std::time::{Duration, Instant};

/// How often it is said.
const EVERY: Duration = Duration::from_secs(5);

/// The clock is looked at once in so many cases.
const SELDOM: u64 = 256;

pub struct Progress {
    build: String,
    /// How many cases there will be, if that is known.
    all: Option<u64>,
    cases: u64,
    differences: u64,
    /// When it was last said, and how many cases there were.
    said: (Instant, u64),
}

impl Progress {
    pub fn new(build: &str, all: Option<u64>) -> Self {
        Progress {
            build: build.into(),
            all,
            cases: 0,
            differences: 0,
            said: (Instant::now(), 0),
        }
    }

    /// Counts a case.
    pub fn add(&mut self, differs: bool) {
        self.cases += 1;
        self.differences += u64::from(differs);
        let (when, before) = self.said;
        let since = self.cases - before;
        if since & (SELDOM - 1) == 0 && when.elapsed() >= EVERY {
            self.say(since as f64 / when.elapsed().as_secs_f64());
            self.said = (Instant::now(), self.cases);
        }
    }

    fn say(&self, rate: f64) {
        let all = self.all.map_or(String::new(), |all| format!(" of {all}"));
        eprintln!(
            "{}: {}{all} cases, {} differences, {rate:.0} a second",
            self.build, self.cases, self.differences
        );
    }
}
