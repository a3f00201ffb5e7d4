//! Jobs. The original has none: here are their bytes, and what its own operations draw of them.

pub mod cases;

use crate::canvas::{self, Area, Canvas, Operation};
use crate::decoders::{self, decode, Input, Kind};
use crate::rules::job::{Dropped, Entry, Plan, IMAGE};
use crate::rules::{OFF_PAPER, WRONG_LENGTH};

/// A job that is sound.
#[derive(Clone, Debug, PartialEq, Eq)]
pub struct Job {
    pub width: u32,
    pub paper_color: u32,
    pub commands: Vec<Command>,
}

#[derive(Clone, Debug, PartialEq, Eq)]
pub enum Command {
    Rectangle {
        area: Area,
        color: u32,
        multiply: bool,
    },
    Image {
        area: Area,
        stretch: (u8, u8),
        color: u32,
        multiply: bool,
        data: Vec<u8>,
    },
    Margin(u32),
    Flip(Area),
}

/// The bytes of a record.
pub fn record(kind: u16, body: &[u8]) -> Vec<u8> {
    let length = (body.len() + 2) as u32;
    [&length.to_le_bytes()[..], &kind.to_le_bytes(), body].concat()
}

impl Job {
    pub fn bytes(&self) -> Vec<u8> {
        let paper = [self.width, self.paper_color].map(u32::to_le_bytes);
        let mut bytes = record(1, &paper.concat());
        for command in &self.commands {
            bytes.extend(command.bytes());
        }
        bytes
    }
}

impl Command {
    pub fn bytes(&self) -> Vec<u8> {
        let sides = |a: &Area| [a.x, a.y, a.w, a.h].map(u32::to_le_bytes).concat();
        match self {
            Command::Rectangle {
                area,
                color,
                multiply,
            } => {
                let rest = [&color.to_le_bytes()[..], &[u8::from(*multiply)]].concat();
                record(2, &[sides(area), rest].concat())
            }
            Command::Image {
                area,
                stretch: (x, y),
                color,
                multiply,
                data,
            } => {
                let color = color.to_le_bytes();
                let mode = [u8::from(*multiply)];
                record(
                    3,
                    &[&sides(area)[..], &[*x, *y], &color, &mode, data].concat(),
                )
            }
            Command::Margin(rows) => record(4, &rows.to_le_bytes()),
            Command::Flip(area) => record(5, &sides(area)),
        }
    }

    /// Bytes of an image's record before its data.
    pub const BEFORE_DATA: usize = 29;

    /// What is decoded of an image.
    pub fn input(&self) -> Option<Input> {
        let Command::Image {
            area,
            stretch,
            color,
            data,
            ..
        } = self
        else {
            return None;
        };
        Some(Input {
            kind: Kind::RasterBits,
            width: area.w,
            height: area.h,
            stretch: *stretch,
            num_colors: 0,
            colors: [*color; 4],
            data: data.clone(),
        })
    }

    /// The original's operation. An image is decoded by the original first.
    fn operation(&self) -> Result<Operation, String> {
        Ok(match *self {
            Command::Rectangle {
                area,
                color,
                multiply,
            } => Operation::DrawRect {
                area,
                color,
                multiply,
            },
            Command::Image { area, multiply, .. } => {
                let input = self.input().expect("it is an image");
                match decode(&input) {
                    Some(decoders::Answer::Image { w, h, dots }) => Operation::PutPixels {
                        area: Area { w, h, ..area },
                        pixels: dots,
                        multiply,
                    },
                    answer => return Err(format!("the Rust's decoding gives {answer:?}")),
                }
            }
            Command::Margin(rows) => Operation::AddTopMargin(rows),
            Command::Flip(area) => Operation::FlipPixels(area),
        })
    }
}

/// Areas of more dots that are off the paper are not asked of the original.
const MOST_DOTS: u128 = 1 << 17;

/// The canvas that the original draws of a job, command by command. What is dropped with 3 or 5 it
/// has to refuse itself.
pub fn draw(job: &Job, dropped: &[Dropped]) -> Result<Canvas, String> {
    let mut canvas = Canvas::new(job.width);
    canvas.set_paper(job.paper_color);
    for (place, command) in (0..).zip(&job.commands) {
        let told = |why: String| format!("at command {place} {why}");
        match dropped.iter().find(|dropped| dropped.place == place) {
            Some(dropped) => refused(&mut canvas, command, dropped.reason).map_err(told)?,
            None => {
                let answer = canvas.apply(&command.operation().map_err(told)?);
                if answer != Some(canvas::Answer::Done) {
                    return Err(told(format!("the Rust gives {answer:?}")));
                }
            }
        }
    }
    Ok(canvas)
}

fn refused(canvas: &mut Canvas, command: &Command, reason: u8) -> Result<(), String> {
    let area = match command {
        Command::Rectangle { area, .. } | Command::Image { area, .. } => area,
        _ => return Ok(()),
    };
    let (x, y) = command.input().map_or((1, 1), |input| input.stretch);
    let stretch = u128::from(x.max(1)) * u128::from(y.max(1));
    if u128::from(area.w) * u128::from(area.h) * stretch > MOST_DOTS {
        return Ok(());
    }
    let kept = match reason {
        WRONG_LENGTH => {
            let answer = command.input().and_then(|input| decode(&input));
            answer != Some(decoders::Answer::Refused(WRONG_LENGTH))
        }
        OFF_PAPER => canvas.apply(&command.operation()?) != Some(canvas::Answer::Refused),
        _ => false,
    };
    match kept {
        true => Err(format!(
            "the Rust does not refuse, the scope asks for {reason}"
        )),
        false => Ok(()),
    }
}

/// The row of a plan that keeps the rules: paper on which the original puts that row of each entry,
/// in order.
pub fn row(plan: &Plan, data: &[u8], row: u32) -> Result<Vec<u8>, String> {
    let mut canvas = Canvas::new(plan.width);
    canvas.set_paper(plan.paper_color);
    let mut operations = vec![Operation::ExpandToHeight(1)];
    for entry in &plan.entries[..plan.count as usize] {
        let area = entry.area;
        if area.w > 0 && row >= area.y && row - area.y < area.h {
            operations.push(entry_row(entry, data, row - area.y)?);
        }
    }
    for operation in &operations {
        let answer = canvas.apply(operation);
        if answer != Some(canvas::Answer::Done) {
            return Err(format!("the Rust gives {answer:?} for a row"));
        }
    }
    Ok(canvas.dots())
}

/// The put of one of an entry's own rows on the first row of a canvas.
fn entry_row(entry: &Entry, data: &[u8], own: u32) -> Result<Operation, String> {
    let area = Area {
        y: 0,
        h: 1,
        ..entry.area
    };
    let multiply = entry.mode == 1;
    if entry.kind != IMAGE {
        return Ok(Operation::DrawRect {
            area,
            color: entry.color,
            multiply,
        });
    }
    let (x, y) = entry.stretch;
    let size = entry.original.0.div_ceil(8) as usize;
    let from = entry.start as usize + (own / u32::from(y)) as usize * size;
    let input = Input {
        kind: Kind::RasterBits,
        width: entry.original.0,
        height: 1,
        stretch: (x, 1),
        num_colors: 0,
        colors: [entry.color; 4],
        data: data[from..from + size].to_vec(),
    };
    match decode(&input) {
        Some(decoders::Answer::Image { mut dots, .. }) => {
            dots.truncate(4 * area.w as usize);
            Ok(Operation::PutPixels {
                area,
                pixels: dots,
                multiply,
            })
        }
        answer => Err(format!("the Rust's decoding gives {answer:?}")),
    }
}
