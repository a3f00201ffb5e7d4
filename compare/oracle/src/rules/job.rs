//! Jobs and row plans by the scope's text alone: which bytes are a job, which commands are dropped
//! and why, what a plan holds, and which number is due. Sums are of u128, so none wraps.

use super::canvas::{after, due, Lent};
use super::{DONE, LARGEST, NO_ROOM};
use crate::canvas::{Area, Operation, Record};
use crate::job::{Command, Job};

pub const BAD_JOB: u8 = 11;
pub const TOO_LONG: u8 = 12;
pub const NOT_TRANSLATED: u8 = 13;
pub const BAD_PLAN: u8 = 14;
pub const NO_ROW: u8 = 15;

pub const MOST_COMMANDS: usize = 64;

/// The bytes of the longest job that is listed.
pub const MOST_LISTED: usize = 32_768;

pub const RECTANGLE: u8 = 2;
pub const IMAGE: u8 = 3;

#[derive(Clone, Copy, Debug, Default, PartialEq, Eq)]
pub struct Dropped {
    pub place: u32,
    pub reason: u8,
}

#[derive(Clone, Copy, Debug, PartialEq, Eq)]
pub struct Entry {
    pub kind: u8,
    pub mode: u8,
    pub stretch: (u8, u8),
    pub color: u32,
    pub area: Area,
    pub original: (u32, u32),
    pub start: u64,
}

impl Entry {
    /// An unused place.
    pub const ZERO: Entry = Entry {
        kind: 0,
        mode: 0,
        stretch: (0, 0),
        color: 0,
        area: Area {
            x: 0,
            y: 0,
            w: 0,
            h: 0,
        },
        original: (0, 0),
        start: 0,
    };
}

/// A plan, sound or not. It has 64 places each for entries and for dropped commands.
#[derive(Clone, Debug, PartialEq, Eq)]
pub struct Plan {
    pub width: u32,
    pub height: u32,
    pub paper_color: u32,
    pub count: u64,
    pub entries: Vec<Entry>,
    pub dropped_count: u64,
    pub dropped: Vec<Dropped>,
}

impl Plan {
    /// The plan of a refused translation.
    pub fn zero() -> Self {
        Plan {
            width: 0,
            height: 0,
            paper_color: 0,
            count: 0,
            entries: vec![Entry::ZERO; MOST_COMMANDS],
            dropped_count: 0,
            dropped: vec![Dropped::default(); MOST_COMMANDS],
        }
    }
}

/// The kinds and bodies of the records, if the bytes are all records.
pub fn records(bytes: &[u8]) -> Option<Vec<(u16, &[u8])>> {
    let mut records = Vec::new();
    let mut rest = bytes;
    while !rest.is_empty() {
        let (length, after) = rest.split_first_chunk()?;
        let length = u32::from_le_bytes(*length) as usize;
        if length > after.len() {
            return None;
        }
        let (record, next) = after.split_at(length);
        let (kind, body) = record.split_first_chunk()?;
        records.push((u16::from_le_bytes(*kind), body));
        rest = next;
    }
    Some(records)
}

/// The job that bytes are, or the number of its refusal: 11, 12.
pub fn read(bytes: &[u8]) -> Result<Job, u8> {
    let records = records(bytes).ok_or(BAD_JOB)?;
    let (paper, commands) = records.split_first().ok_or(BAD_JOB)?;
    let (1, &[a, b, c, d, ref color @ ..]) = *paper else {
        return Err(BAD_JOB);
    };
    let width = u32::from_le_bytes([a, b, c, d]);
    let color: [u8; 4] = color.try_into().map_err(|_| BAD_JOB)?;
    if width == 0 || u64::from(width) > LARGEST {
        return Err(BAD_JOB);
    }
    let commands: Option<Vec<Command>> = commands.iter().map(command).collect();
    let commands = commands.ok_or(BAD_JOB)?;
    if commands.len() > MOST_COMMANDS {
        return Err(TOO_LONG);
    }
    Ok(Job {
        width,
        paper_color: u32::from_le_bytes(color),
        commands,
    })
}

/// A record after the paper.
fn command(&(kind, body): &(u16, &[u8])) -> Option<Command> {
    match (kind, body.len()) {
        (2, 21) => Some(Command::Rectangle {
            area: area(body),
            color: number(&body[16..20]),
            multiply: mode(body[20])?,
        }),
        (3, 23..) => Some(Command::Image {
            area: area(body),
            stretch: (body[16], body[17]),
            color: number(&body[18..22]),
            multiply: mode(body[22])?,
            data: body[23..].to_vec(),
        }),
        (4, 4) => Some(Command::Margin(number(body))),
        (5, 16) => Some(Command::Flip(area(body))),
        _ => None,
    }
}

fn number(bytes: &[u8]) -> u32 {
    u32::from_le_bytes(bytes.try_into().expect("four bytes"))
}

fn area(body: &[u8]) -> Area {
    let at = |i: usize| number(&body[4 * i..4 * i + 4]);
    Area {
        x: at(0),
        y: at(1),
        w: at(2),
        h: at(3),
    }
}

fn mode(byte: u8) -> Option<bool> {
    match byte {
        0 => Some(false),
        1 => Some(true),
        _ => None,
    }
}

/// What comes of a job's commands, whatever is drawn.
#[derive(Clone, Debug, PartialEq, Eq)]
pub struct Outcome {
    pub height: u32,
    pub dropped: Vec<Dropped>,
}

pub fn outcome(job: &Job) -> Outcome {
    let mut canvas = Record {
        width: job.width,
        height: 0,
        auto_grow: true,
        paper_color: job.paper_color,
    };
    let mut dropped = Vec::new();
    for (place, command) in (0..).zip(&job.commands) {
        match refusal(&canvas, command) {
            DONE => canvas.height = after(&put(command), &canvas).1 as u32,
            reason => dropped.push(Dropped { place, reason }),
        }
    }
    Outcome {
        height: canvas.height,
        dropped,
    }
}

/// A command's own number: an image's decoding comes before its put.
fn refusal(canvas: &Record, command: &Command) -> u8 {
    if let Some(input) = command.input() {
        let number = super::due(&input, usize::MAX);
        if number != DONE {
            return number;
        }
    }
    let room = Lent {
        canvas: usize::MAX,
        out: 0,
    };
    due(&put(command), canvas, room)
}

/// The canvas operation with the command's sizes. An image counts as a rectangle of its stretched
/// size, which has as many pixels.
fn put(command: &Command) -> Operation {
    let rectangle = |area| Operation::DrawRect {
        area,
        color: 0,
        multiply: false,
    };
    match *command {
        Command::Rectangle { area, .. } => rectangle(area),
        Command::Image { area, stretch, .. } => rectangle(Area {
            w: area.w.saturating_mul(u32::from(stretch.0.max(1))),
            h: area.h.saturating_mul(u32::from(stretch.1.max(1))),
            ..area
        }),
        Command::Margin(rows) => Operation::AddTopMargin(rows),
        Command::Flip(area) => Operation::FlipPixels(area),
    }
}

/// The number due for a run of a sound job, in a buffer of `lent` bytes.
pub fn run_due(job: &Job, outcome: &Outcome, lent: usize) -> u8 {
    let need = 4 * u128::from(job.width) * u128::from(outcome.height);
    if (lent as u128) < need {
        NO_ROOM
    } else {
        DONE
    }
}

/// The plan of a sound job, or 13.
pub fn translate(job: &Job, outcome: &Outcome) -> Result<Plan, u8> {
    if job.commands.iter().any(|c| matches!(c, Command::Flip(_))) {
        return Err(NOT_TRANSLATED);
    }
    let mut entries: Vec<Entry> = Vec::new();
    // The paper's record is 14 bytes.
    let mut at = 14;
    for (place, command) in (0..).zip(&job.commands) {
        let start = (at + Command::BEFORE_DATA) as u64;
        at += command.bytes().len();
        if outcome.dropped.iter().any(|dropped| dropped.place == place) {
            continue;
        }
        match command {
            Command::Margin(rows) => entries.iter_mut().for_each(|e| e.area.y += rows),
            _ => entries.push(entry(job.width, command, start)),
        }
    }
    let count = entries.len() as u64;
    entries.resize(MOST_COMMANDS, Entry::ZERO);
    let mut dropped = outcome.dropped.clone();
    dropped.resize(MOST_COMMANDS, Dropped::default());
    Ok(Plan {
        width: job.width,
        height: outcome.height,
        paper_color: job.paper_color,
        count,
        entries,
        dropped_count: outcome.dropped.len() as u64,
        dropped,
    })
}

/// A rectangle's or an image's, cropped at the paper's edge.
fn entry(width: u32, command: &Command, start: u64) -> Entry {
    let crop = |area: Area| Area {
        w: area.w.min(width - area.x),
        ..area
    };
    match *command {
        Command::Rectangle {
            area,
            color,
            multiply,
        } => Entry {
            kind: RECTANGLE,
            mode: u8::from(multiply),
            color,
            area: crop(area),
            ..Entry::ZERO
        },
        Command::Image {
            area,
            stretch: (x, y),
            color,
            multiply,
            ..
        } => Entry {
            kind: IMAGE,
            mode: u8::from(multiply),
            stretch: (x.max(1), y.max(1)),
            color,
            area: crop(Area {
                w: area.w * u32::from(x.max(1)),
                h: area.h * u32::from(y.max(1)),
                ..area
            }),
            original: (area.w, area.h),
            start,
        },
        Command::Margin(_) | Command::Flip(_) => unreachable!("it has no entry"),
    }
}

/// The number due for a row of any plan, over so many bytes, in a line of `lent` bytes.
pub fn row_due(plan: &Plan, row: u32, data: usize, lent: usize) -> u8 {
    if !is_good(plan, data) {
        return BAD_PLAN;
    }
    if row >= plan.height {
        return NO_ROW;
    }
    if (lent as u128) < 4 * u128::from(plan.width) {
        return NO_ROOM;
    }
    DONE
}

/// The same for `count` rows from row `first` on, in a buffer of `lent` bytes.
pub fn rows_due(plan: &Plan, first: u32, count: u32, data: usize, lent: usize) -> u8 {
    if !is_good(plan, data) {
        return BAD_PLAN;
    }
    if u64::from(first) + u64::from(count) > u64::from(plan.height) {
        return NO_ROW;
    }
    if (lent as u128) < 4 * u128::from(plan.width) * u128::from(count) {
        return NO_ROOM;
    }
    DONE
}

fn is_good(plan: &Plan, data: usize) -> bool {
    let limit = LARGEST as u32;
    (1..=limit).contains(&plan.width)
        && plan.height <= limit
        && plan.count <= MOST_COMMANDS as u64
        && plan.entries[..plan.count as usize]
            .iter()
            .all(|entry| is_good_entry(plan, entry, data))
}

fn is_good_entry(plan: &Plan, entry: &Entry, data: usize) -> bool {
    let [x, y, w, h] = [entry.area.x, entry.area.y, entry.area.w, entry.area.h].map(u128::from);
    let fits = x + w <= u128::from(plan.width) && y + h <= u128::from(plan.height);
    let (fx, fy) = entry.stretch;
    let (ow, oh) = (u128::from(entry.original.0), u128::from(entry.original.1));
    let kind = match entry.kind {
        RECTANGLE => true,
        IMAGE => {
            fx > 0
                && fy > 0
                && oh * u128::from(fy) == h
                && ow * u128::from(fx) >= w
                && u128::from(entry.start) + ow.div_ceil(8) * oh <= data as u128
        }
        _ => false,
    };
    entry.mode <= 1 && fits && kind
}

/// The dots of a row with ink.
pub fn ink(row: &[u8]) -> u32 {
    row.chunks_exact(4).filter(|dot| dot[0] < 128).count() as u32
}

/// The listing of a plan whose rows have these dots.
pub fn listing(plan: &Plan, dots: &[u8]) -> String {
    let (width, height, dropped) = (plan.width, plan.height, plan.dropped_count);
    let mut text = format!("paper {width} height {height} dropped {dropped}\n");
    for (i, row) in dots.chunks_exact(4 * width as usize).enumerate() {
        text += &format!("row {i} ink {}\n", ink(row));
    }
    text
}

/// The listing of a job that is refused.
pub fn refused_listing(number: u8) -> String {
    format!("refused {number}\n")
}

#[cfg(test)]
mod tests {
    use super::{ink, listing, outcome, read, row_due, run_due, translate, Dropped, Job};
    use crate::canvas::Area;
    use crate::job::{draw, row, Command};

    /// The scope's job.
    const JOB: &str = "0a00000001000a000000ffffffff\
        1b0000000300000000000000000003000000020000000201000000ff01a040\
        1700000002000800000001000000050000000100000000\
        0000ff01060000000400010000001700000002000a0000000000000001000000\
        01000000000000ff01";

    fn job() -> Vec<u8> {
        let digits: Vec<u8> = JOB.bytes().filter(u8::is_ascii_hexdigit).collect();
        let byte = |two: &[u8]| u8::from_str_radix(std::str::from_utf8(two).unwrap(), 16).unwrap();
        digits.chunks(2).map(byte).collect()
    }

    #[test]
    fn the_scopes_job() {
        let bytes = job();
        let job = read(&bytes).unwrap();
        assert_eq!(job.bytes(), bytes);
        let outcome = outcome(&job);
        let dropped = Dropped {
            place: 3,
            reason: 5,
        };
        assert_eq!((outcome.height, &outcome.dropped[..]), (3, &[dropped][..]));
        assert_eq!(
            (run_due(&job, &outcome, 120), run_due(&job, &outcome, 119)),
            (0, 1)
        );
        let plan = translate(&job, &outcome).unwrap();
        let mut canvas = draw(&job, &outcome.dropped).unwrap();
        let rows: Vec<Vec<u8>> = (0..3).map(|i| row(&plan, &bytes, i).unwrap()).collect();
        assert_eq!(rows.concat(), canvas.dots());
        assert_eq!(
            rows.iter().map(|row| ink(row)).collect::<Vec<_>>(),
            [0, 4, 4]
        );
        assert_eq!(
            listing(&plan, &rows.concat()),
            "paper 10 height 3 dropped 1\nrow 0 ink 0\nrow 1 ink 4\nrow 2 ink 4\n"
        );
        assert_eq!(row_due(&plan, 3, bytes.len(), 40), 15);
        assert_eq!(row_due(&plan, 2, bytes.len(), 39), 1);
        assert_eq!(row_due(&plan, 2, 44, 40), 14);
        assert_eq!(row_due(&plan, 2, 45, 40), 0);
    }

    #[test]
    fn bytes_that_are_no_job() {
        let bytes = job();
        let refused = |bytes: &[u8]| read(bytes).err();
        for end in 0..bytes.len() {
            let whole = [14, 45, 72, 82].contains(&end);
            assert_eq!(refused(&bytes[..end]).is_none(), whole, "{end}");
        }
        assert_eq!(refused(&[&bytes[..], &bytes[..]].concat()), Some(11));
        assert_eq!(refused(&bytes[14..]), Some(11));
        let margin = Command::Margin(0).bytes();
        let many = |n| [&bytes[..14], &margin.repeat(n)].concat();
        assert_eq!((refused(&many(64)), refused(&many(65))), (None, Some(12)));
        let with = |kind, body: &[u8]| {
            refused(&[&bytes[..14], &super::super::super::job::record(kind, body)].concat())
        };
        assert_eq!(with(4, &[0; 3]), Some(11));
        assert_eq!(with(6, &[0; 4]), Some(11));
        assert_eq!((with(2, &[0; 21]), with(2, &[0; 22])), (None, Some(11)));
        assert_eq!((with(3, &[0; 22]), with(3, &[0; 24])), (Some(11), None));
        let mut mode = [0; 21];
        mode[20] = 2;
        assert_eq!(with(2, &mode), Some(11));
    }

    #[test]
    fn each_reason() {
        let area = |x, y, w, h| Area { x, y, w, h };
        let rectangle = |area| Command::Rectangle {
            area,
            color: 0,
            multiply: true,
        };
        let image = |area, stretch, bytes| Command::Image {
            area,
            stretch,
            color: 0,
            multiply: false,
            data: vec![0; bytes],
        };
        let reason = |command| {
            let job = Job {
                width: 8,
                paper_color: 0,
                commands: vec![command],
            };
            outcome(&job).dropped.first().map_or(0, |d| d.reason)
        };
        assert_eq!(reason(rectangle(area(9, 0, 16_385, 1))), 2);
        assert_eq!(reason(rectangle(area(8, 0, 16_384, 1))), 5);
        assert_eq!(reason(rectangle(area(7, 16_384, 1, 0))), 0);
        assert_eq!(reason(rectangle(area(7, 16_384, 0, 1))), 8);
        assert_eq!(reason(image(area(8, 0, 65, 1), (255, 1), 0)), 2);
        assert_eq!(reason(image(area(8, 0, 64, 1), (255, 1), 7)), 3);
        assert_eq!(reason(image(area(8, 0, 64, 1), (255, 1), 8)), 5);
        assert_eq!(reason(image(area(0, 0, 64, 1), (255, 0), 8)), 0);
        assert_eq!(reason(Command::Margin(16_385)), 8);
        assert_eq!(reason(Command::Flip(area(9, 0, 0, 1))), 10);
        assert_eq!(reason(Command::Flip(area(7, 20_000, 2, 1))), 5);
        assert_eq!(reason(Command::Flip(area(7, 16_384, 1, 1))), 8);
    }
}
