//! The original's canvas and this library's, which go through a history side by side.

use crate::library::canvas::{call, Answer};
use crate::report::Verdict;
use crate::space::Space;
use oracle::canvas::cases::{Case, Step};
use oracle::canvas::{self, Canvas, Operation, Record};
use oracle::rules::canvas::{after, due, height, Lent};
use oracle::rules::{BAD_CANVAS, DONE, LARGEST, NO_ROOM, OFF_PAPER, SHORT, TOO_MANY, TOO_TALL};
use std::borrow::Cow;

/// What is refused is asked of the original only for canvases and areas of at most so many dots.
const MOST_DOTS: u128 = 1 << 17;

/// What the original says of a case.
enum Rust {
    NotCalled,
    Stops,
    Answers(canvas::Answer),
    /// What comes of it on another canvas: a height, and bytes that are written.
    Elsewhere {
        height: u32,
        bytes: usize,
    },
}

/// Both canvases, which are the same.
pub struct Pair<'a> {
    rust: Canvas,
    record: Record,
    /// Where this library's dots are, and where it writes out to.
    canvas: &'a mut Space,
    out: &'a mut Space,
}

impl<'a> Pair<'a> {
    /// New ones, in memory that is lent from its start and the shifts on.
    pub fn new([canvas, out]: &'a mut [Space; 2], shifts: [usize; 2]) -> Self {
        canvas.shift(shifts[0]);
        out.shift(shifts[1]);
        let rust = Canvas::new(0);
        Pair {
            record: rust.record(),
            rust,
            canvas,
            out,
        }
    }

    pub fn record(&self) -> &Record {
        &self.record
    }

    /// Takes a step. A call has a verdict; after a difference the canvases may not be the same.
    pub fn step(&mut self, step: &Step) -> Option<Verdict> {
        match step {
            Step::Growth(auto_grow) => {
                self.rust.set_growth(*auto_grow);
                self.record.auto_grow = *auto_grow;
            }
            Step::Paper(paper_color) => {
                self.rust.set_paper(*paper_color);
                self.record.paper_color = *paper_color;
            }
            // The caller writes to the buffer that it lends.
            Step::Dots(dots) => {
                let dots = fitted(dots, length(&self.record));
                self.rust = Canvas::of(&self.record, &dots);
                self.canvas.write(&dots);
            }
            Step::Call(case) => return Some(self.judge(case)),
        }
        None
    }

    fn judge(&mut self, case: &Case) -> Verdict {
        // In a history of which steps are left out, the canvas may have become another.
        let given = match is_damaged(&case.given) {
            true => case.given,
            false => self.record,
        };
        let asked = Asked {
            operation: &case.operation,
            given,
            lent: case.lent,
        };
        let due = due(asked.operation, &given, asked.lent);
        let rust = self.ask(due, &asked);
        let outside = !matches!(rust, Rust::Answers(_));
        let ours = call(
            asked.operation,
            &given,
            self.canvas.lend(asked.lent.canvas),
            self.out.lend(asked.lent.out),
        );
        let difference = match self.expected(due, &asked, rust) {
            Ok(expected) if ours != expected => {
                Some(format!("{expected:?} expected, {ours:?} given"))
            }
            Ok(_) => {
                let canvas = self.canvas.difference("the canvas", asked.lent.canvas);
                canvas.or_else(|| self.out.difference("the output", asked.lent.out))
            }
            Err(why) => Some(why),
        };
        if due == DONE {
            self.record = self.rust.record();
            if let Operation::Rotate(_) = asked.operation {
                std::mem::swap(&mut self.canvas, &mut self.out);
            }
        }
        Verdict {
            due,
            outside,
            difference,
        }
    }

    /// Asks the original where it answers as the scope does, or stops. Where it goes on though the
    /// scope refuses, another canvas is asked.
    fn ask(&mut self, due: u8, asked: &Asked) -> Rust {
        let operation = asked.operation;
        match due {
            // Only `get_height` takes a damaged record.
            DONE if asked.given != self.record => Rust::NotCalled,
            DONE => self.answer(operation),
            OFF_PAPER | TOO_MANY | SHORT if is_small(operation) => self.answer(&upright(operation)),
            NO_ROOM | TOO_TALL if is_small(operation) => self.ask_another(operation),
            _ => Rust::NotCalled,
        }
    }

    fn answer(&mut self, operation: &Operation) -> Rust {
        let answer = self.rust.apply(operation);
        answer.map_or(Rust::Stops, Rust::Answers)
    }

    fn ask_another(&self, operation: &Operation) -> Rust {
        let (w, h) = after(operation, &self.record);
        if w == 0 || w * h > MOST_DOTS {
            return Rust::NotCalled;
        }
        let mut another = Canvas::of(&self.record, self.canvas.first(length(&self.record)));
        match another.apply(operation) {
            None => Rust::Stops,
            Some(canvas::Answer::Bytes { h, bytes, .. }) => Rust::Elsewhere {
                height: h,
                bytes: bytes.len(),
            },
            Some(canvas::Answer::Done) => Rust::Elsewhere {
                height: another.record().height,
                bytes: length(&another.record()),
            },
            Some(other) => Rust::Answers(other),
        }
    }

    /// What a call has to give. The original and the scope have to agree on it where the original
    /// is called. What the memory has to hold is set.
    fn expected(&mut self, due: u8, asked: &Asked, rust: Rust) -> Result<Answer, String> {
        let refusal = Ok(asked.refusal(due));
        let is_flip = matches!(asked.operation, Operation::FlipPixels(_));
        match (due, rust) {
            (DONE, Rust::NotCalled) if matches!(asked.operation, Operation::GetHeight) => {
                Ok(Answer::Height(height(&asked.given)))
            }
            (DONE, Rust::NotCalled) => Err("the Rust is not called, the scope asks for 0".into()),
            (_, Rust::NotCalled) => refusal,
            (SHORT, Rust::Stops) => self.kept().and(refusal),
            (_, Rust::Stops) => Err(format!("the Rust stops, the scope asks for {due}")),
            (OFF_PAPER | TOO_MANY, Rust::Answers(canvas::Answer::Refused)) => {
                self.kept().and(refusal)
            }
            // It returns early.
            (OFF_PAPER, Rust::Answers(canvas::Answer::Done)) if is_flip => self.kept().and(refusal),
            (DONE, Rust::Answers(answer)) => self.done(asked, answer),
            (_, Rust::Answers(answer)) => Err(format!(
                "the Rust gives {answer:?}, the scope asks for {due}"
            )),
            (NO_ROOM, Rust::Elsewhere { bytes, .. }) if bytes > asked.written_to() => refusal,
            (TOO_TALL, Rust::Elsewhere { height, .. }) if u64::from(height) > LARGEST => refusal,
            (_, Rust::Elsewhere { height, bytes }) => Err(format!(
                "the Rust gives a height of {height} and {bytes} bytes, the scope asks for {due}"
            )),
        }
    }

    /// The original's canvas is as it was.
    fn kept(&mut self) -> Result<(), String> {
        let dots = self.rust.dots();
        if self.rust.record() == self.record && dots == self.canvas.first(dots.len()) {
            Ok(())
        } else {
            Err("the Rust refuses, and changes its canvas".into())
        }
    }

    fn done(&mut self, asked: &Asked, answer: canvas::Answer) -> Result<Answer, String> {
        let next = self.rust.record();
        let sizes = (u128::from(next.width), u128::from(next.height));
        if sizes != after(asked.operation, &asked.given) {
            return Err(format!("the Rust gives {} x {}", next.width, next.height));
        }
        let space = if writes_out(asked.operation) {
            &mut *self.out
        } else {
            &mut *self.canvas
        };
        let mut expect = |bytes: &[u8]| {
            if bytes.len() > asked.written_to() {
                return Err(format!("the Rust gives {} bytes", bytes.len()));
            }
            space.expect(bytes);
            Ok(())
        };
        match (asked.operation, answer) {
            (Operation::GetHeight, canvas::Answer::Height(h)) => Ok(Answer::Height(h)),
            (Operation::Copy, canvas::Answer::Bytes { w, h, bytes }) => {
                expect(&bytes).map(|_| Answer::Copied(DONE, (w, h)))
            }
            (Operation::ConsumeRgb, canvas::Answer::Bytes { w, h, bytes }) => {
                expect(&bytes).map(|_| Answer::Rgb(DONE, next, (w, h)))
            }
            (_, canvas::Answer::Done) => {
                expect(&self.rust.dots()).map(|_| Answer::Canvas(DONE, next))
            }
            (_, answer) => Err(format!("the Rust gives {answer:?}")),
        }
    }
}

/// A call with the record that it is given.
struct Asked<'a> {
    operation: &'a Operation,
    given: Record,
    lent: Lent,
}

impl Asked<'_> {
    /// A refusal's answer: the record as given, and zero in all else.
    fn refusal(&self, number: u8) -> Answer {
        let zero = Record {
            width: 0,
            height: 0,
            auto_grow: false,
            paper_color: 0,
        };
        match self.operation {
            Operation::New(_) => Answer::Canvas(number, zero),
            Operation::Copy => Answer::Copied(number, (0, 0)),
            Operation::ConsumeRgb => Answer::Rgb(number, self.given, (0, 0)),
            _ => Answer::Canvas(number, self.given),
        }
    }

    /// The length of the buffer that is written to.
    fn written_to(&self) -> usize {
        if writes_out(self.operation) {
            self.lent.out
        } else {
            self.lent.canvas
        }
    }
}

/// Whether it writes to the second buffer, and not to the canvas's.
fn writes_out(operation: &Operation) -> bool {
    matches!(
        operation,
        Operation::Copy | Operation::ConsumeRgb | Operation::Rotate(_)
    )
}

/// Whether a record is none, whatever is lent.
pub fn is_damaged(record: &Record) -> bool {
    let most = Lent {
        canvas: usize::MAX,
        out: usize::MAX,
    };
    due(&Operation::Empty, record, most) == BAD_CANVAS
}

/// The bytes of a canvas's dots.
fn length(record: &Record) -> usize {
    4 * record.width as usize * record.height as usize
}

/// As many bytes as the length says, with zeros for those that are missing.
fn fitted(dots: &[u8], length: usize) -> Cow<'_, [u8]> {
    if dots.len() >= length {
        return Cow::Borrowed(&dots[..length]);
    }
    let mut longer = dots.to_vec();
    longer.resize(length, 0);
    Cow::Owned(longer)
}

/// Whether no sum or product of the original's wraps before it refuses, and it takes little memory.
fn is_small(operation: &Operation) -> bool {
    match operation.area() {
        Some(area) => {
            let (w, h) = (u128::from(area.w), u128::from(area.h));
            w * h <= MOST_DOTS && area.x.checked_add(area.w).is_some()
        }
        None => true,
    }
}

/// The original flips an upside-down image also where it refuses to put it.
fn upright(operation: &Operation) -> Operation {
    let mut operation = operation.clone();
    if let Operation::PutRenderImg { upside_down, .. } = &mut operation {
        *upside_down = false;
    }
    operation
}
