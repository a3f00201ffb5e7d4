//! Histories of the canvas. Buffers are small, so that a program that replays them is quick, and
//! pixels are worked out from a seed, so that every line has the same length.

use crate::checksum;
use oracle::canvas::cases::{Case, Class, Step};
use oracle::canvas::{Answer, Area, Canvas, Operation, Record, Turn};
use oracle::colour::hex;
use oracle::random::Random;
use oracle::rules::canvas::{after, border_due, due, Lent};
use oracle::rules::{DONE, OFF_PAPER, TOO_MANY};

/// What both buffers hold before the first line.
const BEFORE: u8 = 0x5a;

/// The bytes of each of the two buffers, and at most those of the pixels.
const LENGTH: usize = 4096;

/// Lines of the original's answers.
const LINES: usize = 1200;

/// Refusals of one operation with one number.
const REFUSALS: usize = 8;

const PLAIN: Class = Class {
    steps: 24,
    capacity: LENGTH,
    widths: &[0, 1, 2, 3, 5, 8, 9, 13, 16, 20],
    rows: 7,
    draws: false,
};

const DRAWN: Class = Class {
    draws: true,
    ..PLAIN
};

/// Which of two lists is written: the original's answers, or refusals that follow the scope alone.
#[derive(Clone, Copy, PartialEq, Eq)]
pub enum List {
    Answers,
    Refusals,
}

pub fn write(list: List) {
    Writer::new(list, 6).run(&PLAIN, Writer::examples);
}

/// The same with operations that draw.
pub fn write_drawing(list: List) {
    Writer::new(list, 7).run(&DRAWN, Writer::drawn_examples);
}

struct Writer {
    list: List,
    random: Random,
    rust: Canvas,
    record: Record,
    buffers: [Vec<u8>; 2],
    /// The buffer that holds the canvas.
    canvas: usize,
    answers: usize,
    /// The refusals so far, by operation and number.
    refusals: Vec<(&'static str, u8)>,
}

impl Writer {
    fn new(list: List, seed: u64) -> Self {
        let rust = Canvas::new(0);
        Writer {
            list,
            random: Random::new(seed),
            record: rust.record(),
            rust,
            buffers: [0; 2].map(|_| vec![BEFORE; LENGTH]),
            canvas: 0,
            answers: 0,
            refusals: Vec::new(),
        }
    }

    fn run(mut self, class: &Class, examples: fn(&mut Self)) {
        examples(&mut self);
        let mut left = 0;
        while self.answers < LINES {
            let step = if left == 0 {
                left = class.steps;
                Step::Call(class.new_canvas(&mut self.random))
            } else {
                left -= 1;
                class.step(&self.record, &mut self.random)
            };
            self.step(step);
        }
    }

    fn step(&mut self, step: Step) {
        match step {
            Step::Growth(auto_grow) => {
                self.rust.set_growth(auto_grow);
                self.record.auto_grow = auto_grow;
            }
            Step::Paper(paper_color) => {
                self.rust.set_paper(paper_color);
                self.record.paper_color = paper_color;
            }
            Step::Dots(dots) => {
                let seed = self.random.u32();
                let dots = noise(seed, dots.len());
                self.rust = Canvas::of(&self.record, &dots);
                self.buffers[self.canvas][..dots.len()].copy_from_slice(&dots);
                self.answers += 1;
                self.line(&Line {
                    canvas: self.canvas,
                    e: seed,
                    ..Line::new('y', self.record, LENGTH)
                });
            }
            Step::Call(case) => self.call(case),
        }
    }

    fn call(&mut self, mut case: Case) {
        let mut seed = 0;
        if let Operation::PutPixels { pixels, .. } | Operation::PutRenderImg { pixels, .. } =
            &mut case.operation
        {
            seed = self.random.u32();
            *pixels = noise(seed, pixels.len().min(LENGTH));
        }
        let number = due(&case.operation, &case.given, case.lent);
        let mut line = Line::of(&case, seed);
        line.number = number;
        if self.is_answered(number, &case) {
            self.answer(&case, &mut line);
        } else if number != DONE {
            self.refuse(&case, &mut line);
        }
    }

    /// Whether the original has an answer to a case.
    fn is_answered(&self, number: u8, case: &Case) -> bool {
        let upside_down = matches!(
            case.operation,
            Operation::PutRenderImg {
                upside_down: true,
                ..
            }
        );
        match number {
            DONE => case.given == self.record,
            TOO_MANY | OFF_PAPER => is_small(&case.operation) && !upside_down,
            _ => false,
        }
    }

    fn answer(&mut self, case: &Case, line: &mut Line) {
        let before = self.record;
        let answer = self.rust.apply(&case.operation);
        let answer = answer.unwrap_or_else(|| panic!("the original stops: {:?}", case.operation));
        let dots = self.rust.dots();
        self.record = self.rust.record();
        let turned = matches!(case.operation, Operation::Rotate(_));
        let [from, to] = [self.canvas, 1 - self.canvas];
        let to = if turned { to } else { from };
        self.buffers[to][..dots.len()].copy_from_slice(&dots);
        match answer {
            Answer::Refused => assert_ne!(line.number, DONE, "{:?}", case.operation),
            Answer::Height(height) => line.out = (0, height),
            Answer::Bytes { w, h, bytes } => {
                self.buffers[1 - from][..bytes.len()].copy_from_slice(&bytes);
                line.out = (w, h);
            }
            Answer::Done => {}
        }
        if line.number == DONE {
            let sizes = (self.record.width.into(), self.record.height.into());
            assert_eq!(sizes, after(&case.operation, &before));
        } else {
            assert_eq!(self.record, before);
        }
        line.next = self.record;
        line.canvas = from;
        self.answers += 1;
        self.line(line);
        self.canvas = to;
    }

    /// A refusal changes nothing, so it needs no history: both buffers hold what they do at first.
    fn refuse(&mut self, case: &Case, line: &mut Line) {
        let key = (case.operation.name(), line.number);
        if self.refusals.iter().filter(|&&r| r == key).count() == REFUSALS {
            return;
        }
        self.refusals.push(key);
        if let Operation::New(_) = case.operation {
            line.next = ZERO;
        }
        if self.list == List::Refusals {
            let fresh = vec![BEFORE; LENGTH];
            line.print([&fresh, &fresh]);
        }
    }

    fn line(&self, line: &Line) {
        if self.list == List::Answers {
            let [one, two] = &self.buffers;
            line.print([one, two]);
        }
    }

    /// The limits.
    fn examples(&mut self) {
        for operation in [
            Operation::New(16_384),
            Operation::New(16_385),
            Operation::New(u32::MAX),
            Operation::ExpandToWidth(16_385),
            Operation::SetWidth(16_385),
            Operation::ExpandToHeight(16_385),
            Operation::New(1),
            Operation::ExpandToHeight(1_024),
            Operation::ExpandToHeight(1_025),
            Operation::AddTopMargin(1),
            Operation::AddTopMargin(15_361),
            Operation::Rotate(Turn::By90),
            Operation::Rotate(Turn::By270),
            Operation::SetWidth(0),
            Operation::ExpandToHeight(16_384),
            Operation::AddTopMargin(16_384),
            Operation::AddTopMargin(16_385),
            Operation::ExpandToWidth(16_384),
            Operation::Rotate(Turn::By180),
            Operation::Rotate(Turn::By90),
        ] {
            self.example(operation);
        }
    }

    /// The scope's examples, and borders.
    fn drawn_examples(&mut self) {
        let area = |x, y, w, h| Area { x, y, w, h };
        let rect = |area| Operation::PutRect {
            area,
            color: 0xff00_0000,
        };
        let put = |area, pixels: usize| Operation::PutPixels {
            area,
            pixels: vec![0; 4 * pixels],
            multiply: false,
        };
        let image = |area, pixels: usize| Operation::PutRenderImg {
            area,
            pixels: vec![0; 4 * pixels],
            upside_down: true,
        };
        for operation in [
            Operation::New(10),
            put(area(0, 7, 0, 0), 0),
            rect(area(9, 0, 1, 1)),
            rect(area(10, 0, 1, 1)),
        ] {
            self.example(operation);
        }
        // Without growth: the test of the width, and a flip that grows nevertheless.
        for (height, operation) in [
            (3, put(area(0, 0, 4, 1), 3)),
            (4, put(area(0, 0, 4, 1), 3)),
            (4, image(area(0, 3, 10, 2), 20)),
            (5, image(area(1, 4, 10, 2), 20)),
            (5, Operation::FlipPixels(area(0, 5, 10, 2))),
        ] {
            self.example(Operation::Empty);
            self.example(Operation::ExpandToHeight(height));
            self.step(Step::Growth(false));
            self.example(operation);
        }
        for (w, h) in [
            (1, 1),
            (1, 4),
            (4, 1),
            (2, 2),
            (5, 3),
            (0, 3),
            (3, 0),
            (16_385, 0),
            (9, 120),
        ] {
            for color in [0xff00_0000, 0x8020_40c0, 0x0010_1010] {
                self.border(w, h, color);
            }
        }
    }

    fn example(&mut self, operation: Operation) {
        let lent = Lent {
            canvas: LENGTH,
            out: LENGTH,
        };
        self.call(Case {
            operation,
            given: self.record,
            lent,
        });
    }

    /// A border on a picture in the canvas's buffer, of which the canvas then has no dots.
    fn border(&mut self, w: u32, h: u32, color: u32) {
        self.example(Operation::Empty);
        let mut line = Line {
            sizes: [0, 0, w, h],
            e: color.swap_bytes(),
            number: border_due(w, h, LENGTH),
            canvas: self.canvas,
            ..Line::new('b', self.record, LENGTH)
        };
        if line.number != DONE {
            line.canvas = 0;
            if self.list == List::Refusals {
                let fresh = vec![BEFORE; LENGTH];
                line.print([&fresh, &fresh]);
            }
            return;
        }
        let picture = &mut self.buffers[self.canvas][..4 * (w * h) as usize];
        let bordered = oracle::canvas::draw_border(picture, w, h, color);
        picture.copy_from_slice(&bordered.expect("the original draws this border"));
        self.answers += 1;
        self.line(&line);
    }
}

const ZERO: Record = Record {
    width: 0,
    height: 0,
    auto_grow: false,
    paper_color: 0,
};

struct Line {
    kind: char,
    /// The buffer that holds the canvas.
    canvas: usize,
    given: Record,
    sizes: [u32; 4],
    /// A seed, or a colour with its first byte at the top.
    e: u32,
    pixels: usize,
    lent: Lent,
    number: u8,
    next: Record,
    out: (u32, u32),
}

impl Line {
    fn new(kind: char, given: Record, lent: usize) -> Self {
        Line {
            kind,
            canvas: 0,
            given,
            sizes: [0; 4],
            e: 0,
            pixels: 0,
            lent: Lent {
                canvas: lent,
                out: lent,
            },
            number: DONE,
            next: given,
            out: (0, 0),
        }
    }

    fn of(case: &Case, seed: u32) -> Self {
        let mut line = Line::new(kind(&case.operation), case.given, 0);
        line.lent = case.lent;
        line.e = seed;
        if let Some(&Area { x, y, w, h }) = case.operation.area() {
            line.sizes = [x, y, w, h];
        }
        match case.operation {
            Operation::New(a)
            | Operation::ExpandToHeight(a)
            | Operation::ExpandToWidth(a)
            | Operation::AddTopMargin(a)
            | Operation::SetWidth(a) => line.sizes[0] = a,
            Operation::PutPixels { ref pixels, .. }
            | Operation::PutRenderImg { ref pixels, .. } => line.pixels = pixels.len(),
            Operation::DrawRect { color, .. } | Operation::PutRect { color, .. } => {
                line.e = color.swap_bytes();
            }
            _ => {}
        }
        line
    }

    fn print(&self, buffers: [&[u8]; 2]) {
        let [a, b, c, d] = self.sizes;
        let [one, two] = buffers.map(checksum);
        println!(
            "{} {} {} {a:08x} {b:08x} {c:08x} {d:08x} {:08x} {:06x} {:06x} {:06x} {:02x} {} {:08x} {:08x} {one:08x} {two:08x}",
            self.kind,
            self.canvas,
            text(&self.given),
            self.e,
            self.pixels,
            self.lent.canvas,
            self.lent.out,
            self.number,
            text(&self.next),
            self.out.0,
            self.out.1,
        );
    }
}

fn text(record: &Record) -> String {
    format!(
        "{:08x} {:08x} {} {}",
        record.width,
        record.height,
        u8::from(record.auto_grow),
        hex(record.paper_color)
    )
}

fn kind(operation: &Operation) -> char {
    match operation {
        Operation::New(_) => 'n',
        Operation::GetHeight => 'g',
        Operation::ExpandToHeight(_) => 'e',
        Operation::AddTopMargin(_) => 'm',
        Operation::ExpandToWidth(_) => 'w',
        Operation::SetWidth(_) => 's',
        Operation::Empty => 'z',
        Operation::Reset => 'r',
        Operation::Copy => 'c',
        Operation::ConsumeRgb => 'o',
        Operation::Rotate(Turn::By90) => 'q',
        Operation::Rotate(Turn::By180) => 'h',
        Operation::Rotate(Turn::By270) => 't',
        Operation::PutPixels {
            multiply: false, ..
        } => 'p',
        Operation::PutPixels { .. } => 'x',
        Operation::DrawRect {
            multiply: false, ..
        } => 'd',
        Operation::DrawRect { .. } => 'f',
        Operation::PutRect { .. } => 'k',
        Operation::PutRenderImg {
            upside_down: false, ..
        } => 'i',
        Operation::PutRenderImg { .. } => 'u',
        Operation::FlipPixels(_) => 'v',
    }
}

/// Whether the original refuses without a sum that wraps, and takes little memory.
fn is_small(operation: &Operation) -> bool {
    operation.area().is_none_or(|area| {
        u64::from(area.w) * u64::from(area.h) <= 1 << 17 && area.x.checked_add(area.w).is_some()
    })
}

/// Bytes from a seed: each the top byte of the next state, or with an odd seed only 0 and 255.
fn noise(seed: u32, length: usize) -> Vec<u8> {
    let mut state = seed;
    let next = || {
        state = state.wrapping_mul(1_664_525).wrapping_add(1_013_904_223);
        let byte = (state >> 24) as u8;
        match seed % 2 {
            0 => byte,
            _ => byte / 128 * 255,
        }
    };
    std::iter::repeat_with(next).take(length).collect()
}
