//! A colour on every dot of a buffer.

use super::call::{answers, Call, Function};
use crate::library;
use crate::question::{below, blanker, parts, plainer, vary, Question};
use crate::report::{Place, Report, Verdict};
use crate::words::{bytes, Words};
use oracle::colour::hex;

/// What is done to each dot.
#[derive(Clone, Copy, Debug, PartialEq, Eq)]
pub enum Work {
    Blend,
    Multiply,
}

impl Work {
    pub const ALL: [Work; 2] = [Work::Blend, Work::Multiply];

    pub fn name(self) -> &'static str {
        match self {
            Work::Blend => "blend_dots",
            Work::Multiply => "multiply_dots",
        }
    }

    /// The function that does it to one dot.
    pub fn of_a_dot(self) -> Function {
        match self {
            Work::Blend => Function::Blend,
            Work::Multiply => Function::Multiply,
        }
    }
}

/// How dots lie in memory: from the byte `start` on, lent with `tail` bytes after them.
#[derive(Clone, Copy)]
pub struct Lent {
    pub start: usize,
    pub tail: usize,
}

#[derive(Clone)]
pub struct Run {
    work: Work,
    lent: Lent,
    color: u32,
    /// The dots' bytes.
    dots: Vec<u8>,
}

impl Run {
    pub fn new(work: Work, lent: Lent, color: u32, dots: &[u32]) -> Self {
        Run {
            work,
            lent,
            color,
            dots: bytes_of(dots.iter().copied()),
        }
    }

    /// The original's answer for each dot.
    pub fn rust(&self) -> Vec<Option<u32>> {
        let dots = self.dots.chunks_exact(4);
        dots.map(|dot| {
            let dot = u32::from_le_bytes(dot.try_into().unwrap());
            Call::new(self.work.of_a_dot(), [dot, self.color], 0).rust()
        })
        .collect()
    }

    /// What differs in memory, where all but the dots has to stay.
    fn difference_from(&self, rust: &[Option<u32>]) -> Option<String> {
        let mut ours = self.memory(&self.dots);
        let lent = &mut ours[self.lent.start..][..self.dots.len() + self.lent.tail];
        match self.work {
            Work::Blend => library::blend_dots(lent, self.color),
            Work::Multiply => library::multiply_dots(lent, self.color),
        }
        let at = match rust.iter().position(Option::is_none) {
            Some(stop) => self.lent.start + 4 * stop,
            None => {
                let expected = self.memory(&bytes_of(rust.iter().flatten().copied()));
                (0..ours.len()).find(|&i| expected[i] != ours[i])?
            }
        };
        Some(self.describe(at, rust, &ours))
    }

    /// The dots with other bytes before and after them.
    fn memory(&self, dots: &[u8]) -> Vec<u8> {
        [&vec![0xa7; self.lent.start], dots, &[0x5b; 16]].concat()
    }

    fn describe(&self, at: usize, rust: &[Option<u32>], ours: &[u8]) -> String {
        let (start, end) = (self.lent.start, self.lent.start + self.dots.len());
        if at < start {
            return format!("the byte {} before the dots changes", start - at);
        }
        if at >= end {
            return format!("the byte {} after the dots changes", at - end);
        }
        let i = (at - start) / 4;
        let dot = u32::from_le_bytes(ours[start + 4 * i..][..4].try_into().unwrap());
        format!("at dot {i} {}", answers(rust[i], dot))
    }
}

fn bytes_of(dots: impl Iterator<Item = u32>) -> Vec<u8> {
    dots.flat_map(u32::to_le_bytes).collect()
}

pub fn compare(report: &mut Report, row: Place, run: Run, rust: &[Option<u32>]) {
    let verdict = Verdict::done(run.difference_from(rust));
    report.count(row, &verdict, || run);
}

impl Question for Run {
    fn difference(&self) -> Option<String> {
        self.difference_from(&self.rust())
    }

    fn smaller(&self) -> Box<dyn Iterator<Item = Self> + '_> {
        let fewer = vary(self, parts(self.dots.len() / 4), |q, (from, count)| {
            q.dots.drain(4 * from..4 * (from + count));
        });
        let blanker = vary(self, blanker(&self.dots), |q, dots| q.dots = dots);
        let color = vary(self, plainer(self.color), |q, color| q.color = color);
        let start = vary(self, below(self.lent.start), |q, n| q.lent.start = n);
        let tail = vary(self, below(self.lent.tail), |q, n| q.lent.tail = n);
        Box::new(fewer.chain(blanker).chain(color).chain(start).chain(tail))
    }

    fn text(&self) -> String {
        format!(
            "dots {} {} start {} tail {}\n{}\n",
            self.work.name(),
            hex(self.color),
            self.lent.start,
            self.lent.tail,
            bytes(&self.dots)
        )
    }
}

pub fn read(words: &mut Words) -> Result<Run, String> {
    let name = words.word()?;
    let work = Work::ALL.into_iter().find(|work| work.name() == name);
    Ok(Run {
        work: work.ok_or(format!("'{name}' is no work"))?,
        color: words.color()?,
        lent: Lent {
            start: words.past("start")?.number()?,
            tail: words.past("tail")?.number::<usize>()?.min(16),
        },
        dots: words.bytes()?,
    })
}
