//! The canvas: histories of operations, each asked of the original's canvas and of this library's,
//! from a new one on.

mod border;
mod history;
mod pair;
mod text;

use crate::report::{Place, Report};
use crate::space::{Space, SHIFTS};
use history::History;
use oracle::canvas::cases::{Class, Step};
use oracle::canvas::Operation;
use oracle::random::Random;
use pair::Pair;

pub use border::{read as read_border, Borders};
pub use text::read as read_history;

/// Histories, and how many calls they have in all in the quick setting.
const CLASSES: [(u64, Class); 5] = [
    // Small canvases, of which there are the most.
    (
        1_200_000,
        Class {
            steps: 60,
            capacity: 4 * 1_500,
            widths: &[0, 1, 2, 3, 4, 5, 7, 8, 9, 12, 15, 16, 17, 24, 31, 33],
            rows: 10,
            draws: true,
        },
    ),
    // As wide as a receipt is.
    (
        40_000,
        Class {
            steps: 40,
            capacity: 4 * 600 * 40,
            widths: &[256, 280, 300, 384, 512, 576],
            rows: 8,
            draws: true,
        },
    ),
    // As wide as can be.
    (
        10_000,
        Class {
            steps: 30,
            capacity: 4 * 16_384 * 10,
            widths: &[4_097, 8_192, 10_000, 16_383, 16_384, 16_384],
            rows: 4,
            draws: true,
        },
    ),
    // As tall as can be.
    (
        10_000,
        Class {
            steps: 30,
            capacity: 4 * 16_384 * 10,
            widths: &[1, 2, 3, 5, 8, 9],
            rows: 6_000,
            draws: true,
        },
    ),
    // Whole receipts.
    (
        600,
        Class {
            steps: 20,
            capacity: 4 * 576 * 3_000,
            widths: &[384, 512, 576],
            rows: 700,
            draws: true,
        },
    ),
];

/// Borders of the quick setting.
const BORDERS: usize = 60_000;

pub fn compare(report: &mut Report) {
    let mut random = Random::new(5);
    let mut canvases = Canvases::new(report);
    for (class, (calls, _)) in CLASSES.iter().enumerate() {
        let end = report.cases() + calls;
        while report.cases() < end {
            canvases.history(class, u64::MAX, report, &mut random);
        }
    }
    let mut borders = Borders::new(report, &mut random);
    for _ in 0..BORDERS {
        borders.any(report, &mut random);
    }
}

/// The rows of the operations that are compared, and the memory that they are given.
pub struct Canvases {
    rows: Vec<(&'static str, Place)>,
    /// Of each class, once it is used.
    spaces: [Option<[Space; 2]>; CLASSES.len()],
}

impl Canvases {
    pub fn new(report: &mut Report) -> Self {
        let drawing = Operation::DRAWING_NAMES.iter();
        let names = Operation::NAMES.iter().chain(drawing);
        Canvases {
            rows: names.map(|&name| (name, report.row(name))).collect(),
            spaces: Default::default(),
        }
    }

    /// Compares a random history of at most so many calls. A class comes as often as it has calls
    /// in the quick setting.
    pub fn any(&mut self, most: u64, report: &mut Report, random: &mut Random) {
        let all: u64 = CLASSES.iter().map(|(calls, _)| calls).sum();
        let mut at = random.u64() % all;
        let class = CLASSES.iter().position(|(calls, _)| {
            let found = at < *calls;
            at = at.saturating_sub(*calls);
            found
        });
        self.history(class.unwrap(), most, report, random);
    }

    /// Goes on to the end, or until something differs.
    fn history(&mut self, class: usize, most: u64, report: &mut Report, random: &mut Random) {
        let spaces = &mut self.spaces[class];
        let class = &CLASSES[class].1;
        let spaces =
            spaces.get_or_insert_with(|| [0; 2].map(|_| Space::new(class.capacity, random)));
        let shifts = [0; 2].map(|_| random.below(SHIFTS));
        let mut pair = Pair::new(spaces, shifts);
        let mut steps = Vec::new();
        let mut step = Step::Call(class.new_canvas(random));
        let mut left = random.below(class.steps);
        let end = report.cases().saturating_add(most);
        loop {
            let verdict = pair.step(&step);
            steps.push(step);
            if let (Some(verdict), Some(Step::Call(case))) = (&verdict, steps.last()) {
                let row = row(&self.rows, &case.operation);
                report.count(row, verdict, || History {
                    capacity: class.capacity,
                    shifts,
                    steps: steps.clone(),
                });
                if verdict.difference.is_some() || report.cases() >= end {
                    return;
                }
            }
            if left == 0 {
                return;
            }
            left -= 1;
            step = class.step(pair.record(), random);
        }
    }
}

fn row(rows: &[(&'static str, Place)], operation: &Operation) -> Place {
    let name = operation.name();
    let row = rows.iter().find(|(n, _)| *n == name);
    row.expect("each operation has a row").1
}
