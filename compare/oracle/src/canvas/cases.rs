//! What a canvas is asked: steps of random histories.

use super::{Area, Operation, Record, Turn};
use crate::random::Random;
use crate::rules::canvas::{after, cropped, due, Lent};
use crate::rules::{BAD_CANVAS, LARGEST};

#[derive(Clone)]
pub struct Case {
    pub operation: Operation,
    /// The canvas's record, or a damaged one.
    pub given: Record,
    pub lent: Lent,
}

#[derive(Clone)]
pub enum Step {
    Growth(bool),
    Paper(u32),
    Dots(Vec<u8>),
    Call(Case),
}

/// Histories of canvases that are of about one size.
pub struct Class {
    /// Steps of one history.
    pub steps: usize,
    /// The bytes that a buffer has at most.
    pub capacity: usize,
    pub widths: &'static [u32],
    /// Rows are added up to about so many.
    pub rows: usize,
    /// Whether it is drawn on.
    pub draws: bool,
}

const LIMIT: u32 = LARGEST as u32;

/// Numbers above the limit, about which sums and products wrap.
pub const HUGE: [u32; 12] = [
    LIMIT + 1,
    LIMIT + 2,
    32_768,
    65_535,
    65_536,
    65_537,
    1 << 24,
    1 << 30,
    0x7fff_ffff,
    0x8000_0000,
    0xffff_fffe,
    0xffff_ffff,
];

/// Areas of more dots are not drawn.
const MOST_PIXELS: u32 = 1 << 19;

impl Class {
    pub fn new_canvas(&self, random: &mut Random) -> Case {
        let given = Record {
            width: 0,
            height: 0,
            auto_grow: true,
            paper_color: 0xffff_ffff,
        };
        let operation = Operation::New(random.one_of(self.widths));
        self.case(operation, given, random)
    }

    pub fn step(&self, record: &Record, random: &mut Random) -> Step {
        match random.below(20) {
            0 => Step::Growth(random.below(2) == 0),
            1 => Step::Paper(color(random)),
            2 => Step::Dots(dots(record.width as usize * record.height as usize, random)),
            _ => Step::Call(self.any_case(record, random)),
        }
    }

    fn any_case(&self, record: &Record, random: &mut Random) -> Case {
        let operation = if self.draws && random.below(2) == 0 {
            self.drawing(record, random)
        } else {
            self.operation(record, random)
        };
        let given = match operation {
            // What is damaged is the caller's record, which is not used here.
            Operation::New(_) => *record,
            _ if random.below(24) == 0 => damaged(record, random),
            _ => *record,
        };
        self.case(operation, given, random)
    }

    fn case(&self, operation: Operation, given: Record, random: &mut Random) -> Case {
        let have = bytes(u128::from(given.width) * u128::from(given.height));
        let (w, h) = after(&operation, &given);
        let need = bytes(w * h).max(have);
        let out = match operation {
            Operation::ConsumeRgb => have / 4 * 3,
            _ => have,
        };
        let lent = Lent {
            canvas: self.lent(have, need, random),
            out: self.lent(out, out, random),
        };
        Case {
            operation,
            given,
            lent,
        }
    }

    /// The length of a buffer of which `have` bytes are used before the call and `need` after it.
    fn lent(&self, have: usize, need: usize, random: &mut Random) -> usize {
        let length = match random.below(24) {
            0..=11 => need,
            12..=15 => self.capacity,
            16 | 17 => need.saturating_add(random.below(9)),
            18 => need.saturating_sub(1),
            19 => need.saturating_sub(1 + random.below(8)),
            20 => have,
            21 => have.saturating_sub(1),
            22 => random.below(self.capacity + 1),
            _ => 0,
        };
        length.min(self.capacity)
    }

    fn operation(&self, record: &Record, random: &mut Random) -> Operation {
        // A canvas without dots is not kept for long.
        if record.width == 0 && random.below(8) != 0 {
            let width = random.one_of(self.widths);
            let make = [
                Operation::New,
                Operation::SetWidth,
                Operation::ExpandToWidth,
            ];
            return random.one_of(&make)(width);
        }
        if record.height == 0 && random.below(4) != 0 {
            let rows = 1 + random.below(self.rows) as u32;
            let make = [Operation::ExpandToHeight, Operation::AddTopMargin];
            return random.one_of(&make)(rows);
        }
        match random.below(64) {
            0 => Operation::New(self.width(record, random)),
            1 => Operation::SetWidth(self.width(record, random)),
            2 => Operation::Empty,
            3 => Operation::Reset,
            4 => Operation::ConsumeRgb,
            5 | 6 => Operation::GetHeight,
            7..=18 => Operation::ExpandToHeight(self.height(record, record.height, random)),
            19..=30 => Operation::AddTopMargin(self.height(record, 0, random)),
            31..=42 if is_quick_to_widen(record) || random.below(64) == 0 => {
                Operation::ExpandToWidth(self.width(record, random))
            }
            31..=46 => Operation::Copy,
            47..=51 => Operation::Rotate(Turn::By90),
            52..=57 => Operation::Rotate(Turn::By180),
            _ => Operation::Rotate(Turn::By270),
        }
    }

    fn width(&self, record: &Record, random: &mut Random) -> u32 {
        match random.below(16) {
            0 => random.one_of(&HUGE),
            1 => random.one_of(&[LIMIT - 1, LIMIT, LIMIT + 1]),
            2 => record.width,
            3 => record.width.saturating_sub(1),
            4 => 0,
            5..=7 => random.one_of(self.widths),
            _ => record.width + random.below(12) as u32,
        }
    }

    /// A number of rows, or a height that is `from` and some rows.
    fn height(&self, record: &Record, from: u32, random: &mut Random) -> u32 {
        match random.below(24) {
            0 => random.one_of(&HUGE),
            1 => random.one_of(&[LIMIT - 1, LIMIT, LIMIT + 1]),
            2 => LIMIT - record.height,
            3 => LIMIT + 1 - record.height,
            4 => record.height,
            5 => record.height.saturating_sub(1),
            6 => 0,
            _ => from + random.below(self.rows) as u32,
        }
    }

    fn drawing(&self, record: &Record, random: &mut Random) -> Operation {
        let area = self.area(record, random);
        let multiply = random.below(2) == 0;
        match random.below(12) {
            0..=2 => Operation::PutPixels {
                area,
                pixels: self.pixels(&area, record, random),
                multiply,
            },
            3 | 4 => Operation::DrawRect {
                area,
                color: color(random),
                multiply,
            },
            5 => Operation::PutRect {
                area,
                color: color(random),
            },
            6..=9 => Operation::PutRenderImg {
                area,
                pixels: self.pixels(&area, record, random),
                upside_down: random.below(2) == 0,
            },
            _ => Operation::FlipPixels(area),
        }
    }

    fn area(&self, record: &Record, random: &mut Random) -> Area {
        let (wide, tall) = (record.width, record.height);
        let x = match random.below(24) {
            0 => random.one_of(&HUGE),
            1 => wide,
            2 => wide + 1,
            3 | 4 => wide.saturating_sub(1),
            5..=9 => 0,
            _ => random.below(wide.max(1) as usize) as u32,
        };
        let w = match random.below(24) {
            0 => random.one_of(&HUGE),
            1 => random.one_of(&[LIMIT - 1, LIMIT, LIMIT + 1]),
            2 | 3 => 0,
            4 | 5 => wide.saturating_sub(x),
            6 => wide.saturating_sub(x) + 1,
            7 => wide,
            8 => tall,
            9 => tall + 1,
            10..=14 => random.below(wide.saturating_sub(x) as usize + 1) as u32,
            _ => random.below(wide as usize + 4) as u32,
        };
        let h = match random.below(24) {
            0 => random.one_of(&HUGE),
            1 => random.one_of(&[LIMIT - 1, LIMIT, LIMIT + 1]),
            2 | 3 => 0,
            4 => tall,
            5 => tall + 1,
            _ => random.below(self.rows + 2) as u32,
        };
        let h = if w <= LIMIT && h <= LIMIT && w > 0 {
            h.min(MOST_PIXELS / w)
        } else {
            h
        };
        let y = match random.below(24) {
            0 => random.one_of(&HUGE),
            1 => LIMIT.saturating_sub(h),
            2 => (LIMIT + 1).saturating_sub(h),
            3 => tall,
            4 => tall + random.below(self.rows) as u32,
            5 | 6 => tall.saturating_sub(1),
            7 | 8 => tall.saturating_sub(h),
            9 => tall.saturating_sub(w),
            10..=13 => 0,
            _ => random.below(tall as usize + 1) as u32,
        };
        Area { x, y, w, h }
    }

    /// As many pixels as the area has dots, or about as many as are needed or allowed.
    fn pixels(&self, area: &Area, record: &Record, random: &mut Random) -> Vec<u8> {
        let all = u128::from(area.w) * u128::from(area.h);
        if all > u128::from(MOST_PIXELS) {
            return dots(random.below(20), random);
        }
        let all = all as usize;
        let (w, h) = cropped(area, record);
        let needed = h.saturating_sub(1) * u128::from(area.w) + w;
        let needed = needed.min(all as u128) as usize;
        let count = match random.below(32) {
            0 | 1 => all + 1,
            2 => all + 1 + random.below(9),
            3 => all.saturating_sub(1),
            4..=6 => needed,
            7 | 8 => needed.saturating_sub(1),
            9 | 10 => random.below(all + 1),
            11 => 0,
            _ => all,
        };
        let mut pixels = dots(count, random);
        if random.below(64) == 0 {
            pixels.extend(&[1, 2, 3][..1 + random.below(3)]);
        }
        pixels
    }
}

/// The original moves all that is below for each row that it widens.
fn is_quick_to_widen(record: &Record) -> bool {
    record.height <= 64
}

fn bytes(dots: u128) -> usize {
    usize::try_from(4 * dots).unwrap_or(usize::MAX)
}

/// A record that is none, whatever is lent.
fn damaged(record: &Record, random: &mut Random) -> Record {
    let mut damaged = *record;
    match random.below(4) {
        0 => damaged.width = random.one_of(&HUGE),
        1 => damaged.height = random.one_of(&HUGE),
        2 => (damaged.width, damaged.height) = (random.one_of(&HUGE), random.one_of(&HUGE)),
        _ => {
            let height = 1 + random.below(9) as u32;
            (damaged.width, damaged.height) = (0, record.height.max(height));
        }
    }
    let most = Lent {
        canvas: usize::MAX,
        out: usize::MAX,
    };
    assert_eq!(due(&Operation::Empty, &damaged, most), BAD_CANVAS);
    damaged
}

/// Every alpha, and often those that have rules of their own.
pub fn color(random: &mut Random) -> u32 {
    let [r, g, b, a] = random.u32().to_le_bytes();
    let a = random.one_of(&[0, 255, a, a]);
    u32::from_le_bytes([r, g, b, a])
}

/// Dots that are opaque, either opaque or clear, or of every alpha.
pub fn dots(count: usize, random: &mut Random) -> Vec<u8> {
    match random.below(4) {
        0 => dots_by(count, || random.u32() | 0xff00_0000),
        1 => dots_by(count, || {
            random.u32() & 0x00ff_ffff | random.one_of(&[0, 0xff00_0000])
        }),
        2 => dots_by(count, || color(random)),
        _ => dots_by(count, || random.u32()),
    }
}

/// `count` dots, each by a call.
fn dots_by(count: usize, mut dot: impl FnMut() -> u32) -> Vec<u8> {
    let mut dots = vec![0; 4 * count];
    for bytes in dots.chunks_exact_mut(4) {
        bytes.copy_from_slice(&dot().to_le_bytes());
    }
    dots
}
