//! The three decoders, two of them both for bits and for alphas.

mod cases;
mod question;

use crate::library;
use crate::report::{Place, Report, Verdict};
use cases::Case;
use oracle::colour::hex;
use oracle::decoders::{decode, Answer, Input, Kind};
use oracle::random::Random;
use oracle::rules::{self, DONE, NO_ROOM, TOO_LARGE, WRONG_LENGTH};
use thermal::lent::Decoded;

pub use question::read;

/// Images of more dots that are refused are not asked of the original, which would take gigabytes
/// for some.
const MOST_DOTS: u64 = 1 << 19;

/// As many bytes as the largest image takes, and more than those beside it.
const MOST_MEMORY: usize = 4 * cases::LARGEST_DOTS + 4096;

/// Bytes before and after the lent ones.
const BESIDE: usize = 32;

pub fn compare(report: &mut Report) {
    let mut random = Random::new(2);
    let decoders = Decoders::new(report, &mut random);
    for kind in Kind::ALL {
        cases::of(kind, &mut random, |case| decoders.count(report, case));
    }
}

/// The decoders' rows.
pub struct Decoders {
    rows: [Place; 5],
    noise: Vec<u8>,
}

impl Decoders {
    pub fn new(report: &mut Report, random: &mut Random) -> Self {
        Decoders {
            rows: Kind::ALL.map(|kind| report.row(name(kind))),
            noise: noise(MOST_MEMORY, random),
        }
    }

    /// Compares a random image of a random kind.
    pub fn any(&self, report: &mut Report, random: &mut Random) {
        let kind = random.one_of(&Kind::ALL);
        self.count(report, cases::any(kind, random));
    }

    fn count(&self, report: &mut Report, case: Case) {
        let kind = Kind::ALL.iter().position(|&kind| kind == case.input.kind);
        let verdict = judge(&case, &self.noise);
        report.count(self.rows[kind.unwrap()], &verdict, || case);
    }
}

fn noise(length: usize, random: &mut Random) -> Vec<u8> {
    let mut noise = vec![0; length];
    noise.fill_with(|| random.u8());
    noise
}

fn name(kind: Kind) -> &'static str {
    match kind {
        Kind::RasterBits => "image_from_raster_bytes_single_color, bits",
        Kind::RasterAlphas => "image_from_raster_bytes_single_color, alphas",
        Kind::Column => "image_from_column_bytes_single_color",
        Kind::LayerBits => "image_from_raster_bytes_multi_color, bits",
        Kind::LayerAlphas => "image_from_raster_bytes_multi_color, alphas",
    }
}

/// `noise` is what memory holds before the call.
fn judge(case: &Case, noise: &[u8]) -> Verdict {
    let due = rules::due(&case.input, case.lent);
    let (w, h) = rules::stretched(&case.input);
    // A size above the limit is decided before `w * h` is worked out.
    let rust = if due == TOO_LARGE || due != DONE && w * h > MOST_DOTS {
        Rust::NotCalled
    } else {
        decode(&case.input).map_or(Rust::Stops, Rust::Answers)
    };

    let start = BESIDE + case.shift;
    let before = &noise[..start + case.lent + BESIDE];
    let mut memory = before.to_vec();
    let data = case.input.data.clone();
    let ours = library::decode(&case.input, &mut memory[start..start + case.lent]);

    let difference = match expected(due, case, &rust) {
        Ok((expected, dots)) => {
            let mut after = before.to_vec();
            after[start..start + dots.len()].copy_from_slice(dots);
            if ours != expected {
                Some(format!("{} expected, {} given", text(expected), text(ours)))
            } else if memory != after {
                Some(first_difference(&memory, &after, start, case.lent, dots))
            } else if case.input.data != data {
                Some("the data changes".into())
            } else {
                None
            }
        }
        Err(why) => Some(why),
    };
    Verdict {
        due,
        outside: due == NO_ROOM || !matches!(rust, Rust::Answers(_)),
        difference,
    }
}

/// What the original says of a case.
enum Rust {
    NotCalled,
    Stops,
    Answers(Answer),
}

/// What a call has to give, and the dots it has to write. The original and the scope have to agree
/// on it where the original is called.
fn expected<'a>(due: u8, case: &Case, rust: &'a Rust) -> Result<(Decoded, &'a [u8]), String> {
    let lent = case.lent;
    let refusal = Decoded {
        number: due,
        w: 0,
        h: 0,
    };
    match rust {
        Rust::NotCalled if due != DONE => Ok((refusal, &[])),
        Rust::NotCalled => Err("the Rust is not called, the scope asks for an image".into()),
        Rust::Stops if due == WRONG_LENGTH && is_short_column(&case.input) => Ok((refusal, &[])),
        Rust::Stops => Err(format!("the Rust stops, the scope asks for {due}")),
        Rust::Answers(Answer::Refused(number)) if *number == due => Ok((refusal, &[])),
        Rust::Answers(Answer::Refused(number)) => Err(format!(
            "the Rust refuses with {number}, the scope asks for {due}"
        )),
        Rust::Answers(Answer::Image { w, h, dots }) => {
            let (w, h) = (*w, *h);
            let fits = dots.len() <= lent && dots.len() as u64 == 4 * u64::from(w) * u64::from(h);
            match due {
                DONE if fits => Ok((Decoded { number: DONE, w, h }, dots)),
                NO_ROOM if dots.len() > lent => Ok((refusal, &[])),
                _ => Err(format!(
                    "the Rust gives {w} x {h}, the scope asks for {due}"
                )),
            }
        }
    }
}

/// The original turns a column's dots without a test of their number, and stops where some are
/// missing.
fn is_short_column(input: &Input) -> bool {
    let given = input.data.len() as u64;
    input.kind == Kind::Column && rules::data_length(input).is_some_and(|right| given < right)
}

fn text(decoded: Decoded) -> String {
    let Decoded { number, w, h } = decoded;
    format!("number {number}, {w} x {h}")
}

fn first_difference(memory: &[u8], after: &[u8], start: usize, lent: usize, dots: &[u8]) -> String {
    let at = (0..after.len()).find(|&i| memory[i] != after[i]).unwrap();
    if at < start {
        return format!("the byte {} before the buffer changes", start - at);
    }
    let at = at - start;
    if at >= lent {
        return format!("the byte {} after the buffer changes", at - lent);
    }
    if at >= dots.len() {
        return format!(
            "byte {at} of the buffer changes, of which {} are the result's",
            dots.len()
        );
    }
    let dot_of = |bytes: &[u8]| {
        let from = start + at / 4 * 4;
        hex(u32::from_le_bytes(
            bytes[from..from + 4].try_into().unwrap(),
        ))
    };
    format!(
        "at dot {} the Rust gives {}, this library {}",
        at / 4,
        dot_of(after),
        dot_of(memory)
    )
}
