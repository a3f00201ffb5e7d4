//! Counts of what was compared.

use crate::failures;
use crate::progress::Progress;
use crate::question::Question;
use std::process::ExitCode;

/// Differences of one operation that are printed; the rest are counted.
const PRINTED: u64 = 5;

/// The scope's numbers are below this.
const NUMBERS: usize = 17;

/// What is said of a case, which is one call of this library.
pub struct Verdict {
    /// The number that the scope asks for.
    pub due: u8,
    /// Whether the original has no answer to compare with. The scope still has one, so that the case
    /// passes or fails too.
    pub outside: bool,
    pub difference: Option<String>,
}

impl Verdict {
    /// Of an operation that refuses nothing.
    pub fn done(difference: Option<String>) -> Self {
        Verdict {
            due: 0,
            outside: false,
            difference,
        }
    }
}

/// The cases of one operation.
struct Row {
    name: String,
    cases: u64,
    /// How often each number was due.
    numbers: [u64; NUMBERS],
    outside: u64,
    differences: u64,
    /// Whether it may be without a case.
    optional: bool,
}

/// A row's place.
#[derive(Clone, Copy)]
pub struct Place(usize);

pub struct Report {
    build: String,
    rows: Vec<Row>,
    progress: Progress,
}

impl Report {
    pub fn new(build: &str, progress: Progress) -> Self {
        Report {
            build: build.into(),
            rows: Vec::new(),
            progress,
        }
    }

    /// Lets rows be without a case.
    pub fn optional(&mut self, places: impl IntoIterator<Item = Place>) {
        for place in places {
            self.rows[place.0].optional = true;
        }
    }

    /// Adds a row, which has to have cases in the end.
    pub fn row(&mut self, name: impl Into<String>) -> Place {
        self.rows.push(Row {
            name: name.into(),
            cases: 0,
            numbers: [0; NUMBERS],
            outside: 0,
            differences: 0,
            optional: false,
        });
        Place(self.rows.len() - 1)
    }

    /// Counts a case. The first question of a row whose answers differ is made smaller and written.
    pub fn count<Q: Question>(
        &mut self,
        place: Place,
        verdict: &Verdict,
        question: impl FnOnce() -> Q,
    ) {
        let row = &mut self.rows[place.0];
        row.cases += 1;
        row.numbers[usize::from(verdict.due)] += 1;
        row.outside += u64::from(verdict.outside);
        if let Some(difference) = &verdict.difference {
            row.differences += 1;
            if row.differences <= PRINTED {
                println!("{} differs: {difference}", row.name);
            }
            if row.differences == 1 {
                failures::write(&row.name, &self.build, question());
            }
        }
        self.progress.add(verdict.difference.is_some());
    }

    /// How many cases were counted.
    pub fn cases(&self) -> u64 {
        self.rows.iter().map(|row| row.cases).sum()
    }

    /// Prints the counts, and gives success exactly if there are cases and nothing differs.
    pub fn finish(self) -> ExitCode {
        self.print();
        let (passed, failed) = self.passed_and_failed();
        println!("{passed} passed, {failed} failed");
        if failed == 0 {
            ExitCode::SUCCESS
        } else {
            ExitCode::FAILURE
        }
    }

    /// What should have had cases and has none failed too, once.
    fn passed_and_failed(&self) -> (u64, u64) {
        let (mut passed, mut failed) = (0, 0);
        for row in &self.rows {
            if row.cases == 0 && !row.optional {
                println!("{} has no case", row.name);
                failed += 1;
            }
            passed += row.cases - row.differences;
            failed += row.differences;
        }
        if passed == 0 && failed == 0 {
            println!("nothing was compared");
            failed = 1;
        }
        (passed, failed)
    }

    /// A line for each operation, and a column for each number that was due anywhere.
    fn print(&self) {
        let due = |n: usize| self.rows.iter().any(|row| row.numbers[n] > 0);
        let used: Vec<usize> = (0..NUMBERS).filter(|&n| due(n)).collect();
        let numbers = |text: &dyn Fn(usize) -> String| -> String {
            used.iter().map(|&n| format!(" {:>8}", text(n))).collect()
        };
        let head = numbers(&|number| match number {
            0 => "done".into(),
            _ => format!("no. {number}"),
        });
        println!(
            "{:<44} {:>8}{head} {:>8} {:>11}",
            "operation", "cases", "outside", "differences"
        );
        for row in &self.rows {
            let counts = numbers(&|number| row.numbers[number].to_string());
            println!(
                "{:<44} {:>8}{counts} {:>8} {:>11}",
                row.name, row.cases, row.outside, row.differences
            );
        }
    }
}
