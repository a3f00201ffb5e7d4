//! Jobs: their runs, their plans, the rows of those, and their listings by the program `strip`, each
//! against what the original draws.

mod asked;
mod damaged;
mod worked;

use crate::report::{Place, Report, Verdict};
use crate::space::{Space, SHIFTS};
use asked::{Asked, Call};
use damaged::PlanRow;
use oracle::job::cases::{at_limits, lent, Class};
use oracle::random::Random;
use oracle::rules::DONE;
use std::fs;
use worked::Worked;

pub use asked::read as read_job;
pub use damaged::read as read_plan;

/// Jobs: how many there are of them in the quick setting, and of how many one is listed too.
const CLASSES: [(usize, usize, Class); 4] = [
    // Small strips, of which there are the most.
    (
        198_000,
        500,
        Class {
            widths: &[
                1, 2, 3, 5, 7, 8, 9, 12, 15, 16, 17, 24, 31, 32, 33, 48, 63, 64,
            ],
            rows: 60,
            side: 24,
            commands: 10,
            dots: 1 << 17,
        },
    ),
    // As wide as a receipt.
    (
        1_500,
        15,
        Class {
            widths: &[256, 280, 384, 512, 576],
            rows: 190,
            side: 120,
            commands: 20,
            dots: 1 << 20,
        },
    ),
    // As wide as can be.
    (
        300,
        6,
        Class {
            widths: &[8_192, 10_000, 16_383, 16_384],
            rows: 12,
            side: 12,
            commands: 8,
            dots: 1 << 20,
        },
    ),
    // As tall as can be.
    (
        300,
        6,
        Class {
            widths: &[1, 2, 3, 8, 9],
            rows: 16_384,
            side: 2_000,
            commands: 8,
            dots: 1 << 20,
        },
    ),
];

pub fn compare(report: &mut Report) {
    let mut random = Random::new(8);
    let mut jobs = Jobs::new(report);
    for (count, apart, class) in &CLASSES {
        for _ in 0..*count {
            let bytes = class.bytes(&mut random);
            jobs.compare(bytes, *apart, u64::MAX, report, &mut random);
        }
    }
    for bytes in at_limits(&mut random) {
        jobs.count(Call::List, 0, &Worked::of(bytes), report, &mut random);
    }
}

/// The rows of what is compared, and the memory that is lent.
pub struct Jobs {
    run: Place,
    translate: Place,
    row: Place,
    rows: Place,
    damaged: Place,
    list: Place,
    spaces: Spaces,
    /// Jobs that were compared.
    jobs: usize,
}

impl Jobs {
    pub fn new(report: &mut Report) -> Self {
        Jobs {
            run: report.row("run of a job"),
            translate: report.row("translation of a job"),
            row: report.row("row of a plan"),
            rows: report.row("rows of a plan at once"),
            damaged: report.row("row of a damaged plan"),
            list: report.row("strip"),
            spaces: Spaces::default(),
            jobs: 0,
        }
    }

    /// Compares a random job, in at most so many cases. A class comes as often as in the quick
    /// setting.
    pub fn any(&mut self, most: u64, report: &mut Report, random: &mut Random) {
        let all: usize = CLASSES.iter().map(|(count, ..)| count).sum();
        let mut at = random.below(all);
        let class = CLASSES.iter().find(|(count, ..)| {
            let found = at < *count;
            at = at.saturating_sub(*count);
            found
        });
        let (_, apart, class) = class.expect("it is below their sum");
        self.compare(class.bytes(random), *apart, most, report, random);
    }

    /// Compares a job, in at most so many cases. One of `apart` jobs is listed too, the first always.
    fn compare(
        &mut self,
        bytes: Vec<u8>,
        apart: usize,
        most: u64,
        report: &mut Report,
        random: &mut Random,
    ) {
        let end = report.cases().saturating_add(most);
        let listed = self.jobs.is_multiple_of(apart);
        self.jobs += 1;
        let worked = Worked::of(bytes);
        let length = lent(worked.room(), random);
        self.count(Call::Run, length, &worked, report, random);
        if report.cases() < end {
            self.count(Call::Translate, 0, &worked, report, random);
        }
        if listed && report.cases() < end {
            self.count(Call::List, 0, &worked, report, random);
        }
        let Some(plan) = worked.plan() else {
            return;
        };
        for row in rows(plan.height, random) {
            if report.cases() == end {
                return;
            }
            let need = 4 * plan.width as usize;
            let length = match random.below(8) {
                0 => lent(need, random),
                _ => need,
            };
            self.count(Call::Row(row), length, &worked, report, random);
        }
        for (first, count) in bands(plan.height, random) {
            if report.cases() == end {
                return;
            }
            let need = 4 * plan.width as usize * count.min(plan.height) as usize;
            let length = lent(need, random);
            self.count(Call::Rows(first, count), length, &worked, report, random);
        }
        for _ in 0..3 {
            if report.cases() == end {
                return;
            }
            let asked = PlanRow::any(plan, worked.bytes(), random);
            let verdict = asked.judge(self.spaces.of(asked.lent()));
            report.count(self.damaged, &verdict, || asked);
        }
    }

    /// Counts a call, and gives whether nothing differs.
    fn count(
        &mut self,
        call: Call,
        lent: usize,
        worked: &Worked,
        report: &mut Report,
        random: &mut Random,
    ) -> bool {
        let shift = random.below(SHIFTS);
        let space = self.spaces.of(lent);
        space.shift(shift);
        let (place, verdict): (Place, Verdict) = match call {
            Call::Run => (self.run, worked.run(lent, space)),
            Call::Translate => (self.translate, worked.translate()),
            Call::Row(row) => (self.row, worked.row(row, lent, space)),
            Call::Rows(first, count) => (self.rows, worked.rows(first, count, lent, space)),
            Call::List => (self.list, worked.list()),
        };
        report.count(place, &verdict, || {
            Asked::new(worked.bytes(), call, lent, shift)
        });
        verdict.difference.is_none()
    }
}

/// All rows of a plan, of some plans and of tall ones in a random order, and some past them.
fn rows(height: u32, random: &mut Random) -> Vec<u32> {
    let mut rows: Vec<u32> = (0..height).collect();
    if height > 150 || random.below(4) == 0 {
        for i in (1..rows.len()).rev() {
            rows.swap(i, random.below(i + 1));
        }
    }
    rows.extend([height, random.one_of(&[height + 1, 16_384, u32::MAX])]);
    rows
}

/// All rows of a plan from the first on, and some from another on, up to the last or past it.
fn bands(height: u32, random: &mut Random) -> [(u32, u32); 2] {
    let first = random.below(height as usize + 2) as u32;
    let left = height.saturating_sub(first);
    let count = match random.below(8) {
        0 => left + 1,
        1 => random.one_of(&[0, 16_384, u32::MAX]),
        2 => left,
        _ => random.below(left as usize + 1) as u32,
    };
    [(0, height), (first, count)]
}

/// Compares each file of a folder as a job, and says what comes of it.
pub fn archive(folder: &str, report: &mut Report) -> Result<(), String> {
    let told = |e: std::io::Error| format!("{folder}: {e}");
    let mut files = Vec::new();
    for file in fs::read_dir(folder).map_err(told)? {
        let path = file.map_err(told)?.path();
        if path.is_file() {
            files.push(path);
        }
    }
    files.sort();
    let mut random = Random::new(9);
    let mut jobs = Jobs::new(report);
    for path in files {
        let bytes = fs::read(&path).map_err(|e| format!("{}: {e}", path.display()))?;
        let worked = Worked::of(bytes);
        let room = worked.room();
        let mut same = jobs.count(Call::Run, room, &worked, report, &mut random);
        same &= jobs.count(Call::Translate, 0, &worked, report, &mut random);
        same &= jobs.count(Call::List, 0, &worked, report, &mut random);
        if let Some(plan) = worked.plan() {
            for row in 0..plan.height {
                let line = 4 * plan.width as usize;
                same &= jobs.count(Call::Row(row), line, &worked, report, &mut random);
            }
            let all = Call::Rows(0, plan.height);
            same &= jobs.count(all, room, &worked, report, &mut random);
        }
        let name = path.file_name().unwrap_or_default().display();
        let verdict = if same { "same" } else { "DIFFERS" };
        println!("{name}: {}, {verdict}", worked.told());
    }
    // What an archive may be without.
    report.optional([jobs.row, jobs.rows, jobs.damaged]);
    Ok(())
}

/// Memory of some sizes, each made when it is first lent, so that little is looked over for little.
#[derive(Default)]
struct Spaces([Option<Space>; 5]);

impl Spaces {
    const SIZES: [usize; 5] = [1 << 9, 1 << 14, 1 << 17, 1 << 20, 1 << 24];

    fn of(&mut self, lent: usize) -> &mut Space {
        let i = Self::SIZES.iter().position(|&size| lent <= size);
        let i = i.unwrap_or(Self::SIZES.len() - 1);
        let size = Self::SIZES[i].max(lent);
        let space = self.0[i].take().filter(|space| space.capacity() >= size);
        let space = space.unwrap_or_else(|| Space::new(size, &mut Random::new(size as u64)));
        self.0[i].insert(space)
    }
}

/// Whether the original has no answer to compare with.
fn is_outside(due: u8) -> bool {
    due != DONE
}
