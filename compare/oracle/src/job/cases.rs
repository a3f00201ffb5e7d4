//! What a run is asked: random jobs, sound and damaged.

use super::{record, Command, Job};
use crate::canvas::cases::{color, HUGE};
use crate::canvas::Area;
use crate::random::Random;
use crate::rules::job::{outcome, read, records, Entry, Plan, MOST_COMMANDS, MOST_LISTED};
use crate::rules::LARGEST;

/// Jobs of about one size.
pub struct Class {
    pub widths: &'static [u32],
    /// What is drawn begins within so many rows, or past the limit.
    pub rows: u32,
    /// Images and rectangles have sides up to about so many.
    pub side: u32,
    /// Most commands of a job, and of a few as many as are taken.
    pub commands: usize,
    /// The dots that a job draws, at most, those that are drawn over counted anew.
    pub dots: u64,
}

const LIMIT: u32 = LARGEST as u32;

/// Lengths, sizes and places at which something changes.
const EDGES: [u32; 10] = [0, 1, 2, 7, 8, 9, LIMIT - 1, LIMIT, LIMIT + 1, 0xffff_ffff];

impl Class {
    /// The bytes of a job: two of three are sound.
    pub fn bytes(&self, random: &mut Random) -> Vec<u8> {
        loop {
            let mut bytes = self.job(random).bytes();
            if random.below(3) == 0 {
                damage(&mut bytes, random);
            }
            if cost(&bytes) <= self.dots {
                return bytes;
            }
        }
    }

    /// A sound job, of which some have too many commands.
    pub fn job(&self, random: &mut Random) -> Job {
        let width = random.one_of(self.widths);
        let count = match random.below(64) {
            0 => MOST_COMMANDS - 1 + random.below(3),
            1 => random.below(MOST_COMMANDS + 1),
            _ => random.below(self.commands + 1),
        };
        // Where there is a flip there is no plan.
        let flips = random.below(3) == 0;
        let paper_color = match random.below(2) {
            0 => 0xffff_ffff,
            _ => color(random),
        };
        let commands = (0..count).map(|_| self.command(width, flips, random));
        Job {
            width,
            paper_color,
            commands: commands.collect(),
        }
    }

    fn command(&self, width: u32, flips: bool, random: &mut Random) -> Command {
        let multiply = random.below(2) == 0;
        match random.below(16) {
            0..=5 => Command::Rectangle {
                area: self.area(width, random),
                color: color(random),
                multiply,
            },
            6..=12 => self.image(width, multiply, random),
            13 | 14 if flips => Command::Flip(self.flip(width, random)),
            _ => Command::Margin(match random.below(16) {
                0 => LIMIT - random.below(2) as u32,
                1 => random.one_of(&HUGE),
                _ => random.below(1 + self.rows as usize / 8) as u32,
            }),
        }
    }

    fn area(&self, width: u32, random: &mut Random) -> Area {
        let x = match random.below(16) {
            0 => width - 1,
            1 => width,
            2 => width + 1,
            3 => random.one_of(&HUGE),
            4 => 0,
            _ => random.below(width as usize) as u32,
        };
        let side = |random: &mut Random| random.below(1 + self.side as usize) as u32;
        let w = match random.below(16) {
            0 => 0,
            1 => width.saturating_sub(x),
            2 => width.saturating_sub(x) + 1,
            3 => width,
            4 => random.one_of(&HUGE),
            _ => side(random),
        };
        let h = match random.below(24) {
            0 => 0,
            1 => random.one_of(&HUGE),
            _ => side(random),
        };
        Area {
            x,
            y: self.row(h, random),
            w,
            h,
        }
    }

    /// A row at which so many begin.
    fn row(&self, h: u32, random: &mut Random) -> u32 {
        match random.below(24) {
            0 => (LIMIT + 1).saturating_sub(h.min(LIMIT)),
            1 => random.one_of(&HUGE),
            2 => 0,
            3 => self.rows,
            _ => random.below(1 + self.rows as usize) as u32,
        }
    }

    fn image(&self, width: u32, multiply: bool, random: &mut Random) -> Command {
        let stretch = match random.below(16) {
            0 => (random.u8(), random.below(4) as u8),
            1 => (random.below(4) as u8, random.u8()),
            2 => (255, 255),
            3..=9 => (random.below(2) as u8, random.below(2) as u8),
            _ => (random.below(5) as u8, random.below(5) as u8),
        };
        let mut area = self.area(width, random);
        if random.below(4) != 0 {
            // Its stretched sides are as long as others are.
            area.w = area.w.div_ceil(u32::from(stretch.0.max(1)));
            area.h = area.h.div_ceil(u32::from(stretch.1.max(1)));
        }
        let right = u64::from(area.w.div_ceil(8)) * u64::from(area.h);
        let right = if right > 1 << 16 { 0 } else { right as usize };
        let length = match random.below(24) {
            0 => right.saturating_sub(1),
            1 => right + 1,
            2 => random.below(2 * right + 2),
            3 => 0,
            _ => right,
        };
        let data: Vec<u8> = match random.below(8) {
            0 => vec![0; length],
            1 => vec![255; length],
            _ => (0..length).map(|_| random.u8()).collect(),
        };
        Command::Image {
            area,
            stretch,
            color: color(random),
            multiply,
            data,
        }
    }

    /// Most lie on the paper.
    fn flip(&self, width: u32, random: &mut Random) -> Area {
        let mut area = self.area(width, random);
        if random.below(4) != 0 && area.x < width {
            area.w = area.w.min(width - area.x);
        }
        area
    }
}

/// Jobs at the limits of a listing: the bytes, the commands, the sides, and what is refused.
pub fn at_limits(random: &mut Random) -> Vec<Vec<u8>> {
    let black = 0xff00_0000;
    let area = |x, y, w, h| Area { x, y, w, h };
    let mut image = |w: u32, h: u32, stretch| Command::Image {
        area: area(0, 0, w, h),
        stretch,
        color: black,
        multiply: true,
        data: (0..w.div_ceil(8) * h).map(|_| random.u8()).collect(),
    };
    let rectangle = |x, w, h, color| Command::Rectangle {
        area: area(x, 0, w, h),
        color,
        multiply: false,
    };
    let job = |width, commands| {
        let paper_color = 0xffff_ffff;
        let job = Job {
            width,
            paper_color,
            commands,
        };
        job.bytes()
    };
    // 14 bytes of paper, 29 before the data, and 175 rows of 187.
    let longest = job(1_496, vec![image(1_496, 175, (1, 1))]);
    assert_eq!(longest.len(), MOST_LISTED);
    let margin = Command::Margin(1);
    let flip = Command::Flip(area(0, 0, 1, 1));
    vec![
        Vec::new(),
        job(1, Vec::new()),
        // Reds of 127, which are ink, and of 128, which are none.
        job(
            9,
            vec![
                rectangle(0, 4, 1, 0x8000_0000),
                rectangle(4, 5, 1, 0x7f00_0000),
            ],
        ),
        longest[..MOST_LISTED - 1].to_vec(),
        // Longer ones: with a byte that is no record, as a job by itself, and by more than a pipe
        // holds.
        [&longest[..], &[0]].concat(),
        [&longest[..], &margin.bytes()].concat(),
        longest.repeat(9),
        longest,
        // The most commands, all kept and all dropped; one more; and as many as the bytes hold, or
        // too many for them.
        job(9, vec![margin.clone(); MOST_COMMANDS]),
        job(9, vec![rectangle(9, 1, 1, black); MOST_COMMANDS]),
        job(9, vec![margin.clone(); MOST_COMMANDS + 1]),
        job(9, vec![margin.clone(); 3_275]),
        job(9, vec![margin.clone(); 3_276]),
        job(9, vec![margin.clone(), flip.clone()]),
        job(9, vec![flip; MOST_COMMANDS + 1]),
        // As wide and as tall as can be, and a tall one whose picture takes 37 MB.
        job(LIMIT, vec![image(LIMIT, 15, (1, 1))]),
        job(8, vec![image(8, LIMIT, (1, 1))]),
        job(
            576,
            vec![
                rectangle(570, 9, LIMIT - 1, 0x8000_0000),
                image(64, 240, (9, 68)),
                margin,
            ],
        ),
    ]
}

/// The dots that a job draws, or none where it is refused. A margin and a flip take the canvas.
pub fn cost(bytes: &[u8]) -> u64 {
    let Ok(job) = read(bytes) else {
        return 0;
    };
    let outcome = outcome(&job);
    let canvas = u64::from(job.width) * u64::from(outcome.height);
    let kept = (0..).zip(&job.commands).filter(|(place, _)| {
        let mut dropped = outcome.dropped.iter();
        !dropped.any(|dropped| dropped.place == *place)
    });
    let drawn = kept.map(|(_, command)| match command {
        Command::Rectangle { area, .. } => u64::from(area.w) * u64::from(area.h),
        Command::Image { area, stretch, .. } => {
            let (x, y) = (u64::from(stretch.0.max(1)), u64::from(stretch.1.max(1)));
            u64::from(area.w) * x * u64::from(area.h) * y
        }
        Command::Margin(_) | Command::Flip(_) => canvas,
    });
    canvas + drawn.sum::<u64>()
}

/// Damages a job, so that it may or may not be one still.
pub fn damage(bytes: &mut Vec<u8>, random: &mut Random) {
    // Where the records begin.
    let mut starts = vec![0];
    for (_, body) in records(bytes).unwrap_or_default() {
        starts.push(starts[starts.len() - 1] + 6 + body.len());
    }
    let start = random.one_of(&starts[..starts.len() - 1]);
    let any = |bytes: &[u8], random: &mut Random| random.below(bytes.len().max(1));
    match random.below(14) {
        0 | 1 => bytes.truncate(any(bytes, random)),
        2..=4 => {
            for _ in 0..1 + random.below(3) {
                let at = any(bytes, random);
                bytes[at] ^= 1 << random.below(8);
            }
        }
        5 => bytes.extend_from_within(..),
        // One record, or all from one on, once more.
        6 => bytes.extend_from_within(start..),
        7 => {
            let next = starts[starts.iter().position(|&at| at == start).unwrap() + 1];
            let again = bytes[start..next].to_vec();
            bytes.splice(next..next, again);
        }
        // A length or a kind.
        8 => {
            let value = random.one_of(&EDGES);
            bytes[start..start + 4].copy_from_slice(&value.to_le_bytes());
        }
        9 => bytes[start + 4] = random.below(8) as u8,
        // A size, which may be huge.
        10 | 11 => {
            let at = start + 6 + 4 * random.below(4);
            let value = match random.below(2) {
                0 => random.one_of(&HUGE),
                _ => random.one_of(&EDGES),
            };
            if at + 4 <= bytes.len() {
                bytes[at..at + 4].copy_from_slice(&value.to_le_bytes());
            }
        }
        12 => bytes.insert(any(bytes, random), random.u8()),
        _ => {
            let length = random.below(40);
            let body: Vec<u8> = (0..length).map(|_| random.u8()).collect();
            match random.below(3) {
                0 => *bytes = body,
                1 => bytes.extend(body),
                _ => bytes.extend(record(random.below(7) as u16, &body)),
            }
        }
    }
}

/// Changes a plan, so that it may or may not keep the rules still. `data` is as many bytes as it is
/// given.
pub fn damage_plan(plan: &mut Plan, data: usize, random: &mut Random) {
    let used = (plan.count as usize).clamp(1, MOST_COMMANDS);
    for _ in 0..1 + random.below(2) {
        let (width, height) = (plan.width, plan.height);
        let count = plan.count;
        let entry = &mut plan.entries[random.below(used)];
        match random.below(20) {
            0 => plan.width = near(width, random),
            1 => plan.height = near(height, random),
            2 => {
                plan.count =
                    random.one_of(&[0, 63, 64, 65, count.saturating_add(1), 1 << 32, u64::MAX])
            }
            3 => plan.paper_color = color(random),
            4 => entry.kind = random.one_of(&[0, 1, 2, 3, 2, 3, 4, 5, 255]),
            5 => entry.mode = random.one_of(&[0, 1, 0, 1, 2, 255]),
            6 => entry.stretch.0 = random.one_of(&[0, 1, 2, 3, 254, 255]),
            7 => entry.stretch.1 = random.one_of(&[0, 1, 2, 3, 254, 255]),
            8 => entry.color = color(random),
            9 | 10 => entry.area.x = near(entry.area.x, random),
            11 | 12 => entry.area.w = near(entry.area.w, random),
            13 => entry.area.y = near(entry.area.y, random),
            14 => entry.area.h = near(entry.area.h, random),
            15 => entry.original.0 = near(entry.original.0, random),
            16 => entry.original.1 = near(entry.original.1, random),
            17 => double(entry),
            _ => {
                let size = u64::from(entry.original.0.div_ceil(8)) * u64::from(entry.original.1);
                let last = (data as u64).saturating_sub(size);
                let at = entry.start;
                let near = [0, at / 2, last, last + 1, data as u64, 1 << 32, u64::MAX];
                entry.start = random.one_of(&near);
            }
        }
    }
}

/// The same rows at twice the height, which stay within the rules where the plan is tall enough.
fn double(entry: &mut Entry) {
    entry.stretch.1 = entry.stretch.1.saturating_mul(2);
    entry.area.h = entry.area.h.saturating_mul(2);
    entry.area.y /= 2;
}

fn near(value: u32, random: &mut Random) -> u32 {
    match random.below(8) {
        0 => random.one_of(&HUGE),
        1 => random.one_of(&EDGES),
        2 => value.wrapping_sub(1),
        3 => value.wrapping_add(1),
        4 => value / 2,
        5 => 0,
        _ => random.below(value as usize + 1) as u32,
    }
}

/// The length of a buffer for which `need` bytes are used.
pub fn lent(need: usize, random: &mut Random) -> usize {
    match random.below(16) {
        0..=8 => need,
        9 => need.saturating_sub(1),
        10 => need.saturating_sub(1 + random.below(8)),
        11 => random.below(need + 1),
        12 => 0,
        13 => need + 1,
        _ => need + random.below(60),
    }
}
