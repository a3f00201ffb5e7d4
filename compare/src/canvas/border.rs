//! Borders of pictures, which are no part of a canvas.

use crate::library::canvas::draw_border;
use crate::question::{below, blanker, plainer, vary, Question};
use crate::report::{Place, Report, Verdict};
use crate::space::{Space, SHIFTS};
use crate::words::{bytes, Words};
use oracle::canvas;
use oracle::canvas::cases::{color, HUGE};
use oracle::colour::hex;
use oracle::random::Random;
use oracle::rules::canvas::border_due;
use oracle::rules::DONE;

const CAPACITY: usize = 4 * 16_384 * 3;

/// The row of borders, and memory for them.
pub struct Borders {
    row: Place,
    space: Space,
}

impl Borders {
    pub fn new(report: &mut Report, random: &mut Random) -> Self {
        Borders {
            row: report.row("draw_border"),
            space: Space::new(CAPACITY, random),
        }
    }

    /// Compares a random border.
    pub fn any(&mut self, report: &mut Report, random: &mut Random) {
        let shift = random.below(SHIFTS);
        self.space.shift(shift);
        let (w, h) = sizes(random);
        let need = usize::try_from(4 * u128::from(w) * u128::from(h)).unwrap_or(usize::MAX);
        let lent = match random.below(8) {
            0 => need.saturating_sub(1 + random.below(8)),
            1 => need.saturating_add(random.below(40)),
            2 => random.below(4_096),
            _ => need,
        };
        let border = Border {
            sizes: (w, h),
            color: color(random),
            shift,
            picture: self.space.first(lent.min(CAPACITY)).to_vec(),
        };
        let verdict = border.judge(&mut self.space);
        report.count(self.row, &verdict, || border);
    }
}

fn sizes(random: &mut Random) -> (u32, u32) {
    let size = |random: &mut Random| random.below(24) as u32;
    let long = |random: &mut Random| match random.below(3) {
        0 => random.one_of(&HUGE),
        _ => random.one_of(&[16_383, 16_384, 16_385]),
    };
    match random.below(64) {
        0 => (long(random), random.below(4) as u32),
        1 => (random.below(4) as u32, long(random)),
        2 => (long(random), long(random)),
        _ => (size(random), size(random)),
    }
}

#[derive(Clone)]
pub struct Border {
    sizes: (u32, u32),
    color: u32,
    shift: usize,
    /// All that is lent.
    picture: Vec<u8>,
}

impl Border {
    /// The picture is already in the memory.
    fn judge(&self, space: &mut Space) -> Verdict {
        let ((w, h), color, lent) = (self.sizes, self.color, self.picture.len());
        let due = border_due(w, h, lent);
        let rust = if due == DONE {
            let dots = 4 * w as usize * h as usize;
            canvas::draw_border(&self.picture[..dots], w, h, color)
        } else {
            None
        };
        let ours = draw_border(w, h, color, space.lend(lent));
        let difference = match rust {
            None if due == DONE => Some("the Rust stops, the scope asks for 0".into()),
            _ if ours != due => Some(format!("{due} expected, {ours} given")),
            rust => {
                space.expect(&rust.unwrap_or_default());
                space.difference("the picture", lent)
            }
        };
        Verdict {
            due,
            outside: due != DONE,
            difference,
        }
    }
}

impl Question for Border {
    fn difference(&self) -> Option<String> {
        let mut space = Space::new(self.picture.len(), &mut Random::new(0));
        space.shift(self.shift);
        space.write(&self.picture);
        self.judge(&mut space).difference
    }

    fn smaller(&self) -> Box<dyn Iterator<Item = Self> + '_> {
        let (w, h) = self.sizes;
        let all = [
            vary(self, below(w), |q, n| q.sizes.0 = n),
            vary(self, below(h), |q, n| q.sizes.1 = n),
            vary(self, below(self.picture.len()), |q, n| {
                q.picture.truncate(n)
            }),
            vary(self, below(self.shift), |q, n| q.shift = n),
            vary(self, plainer(self.color), |q, color| q.color = color),
            vary(self, blanker(&self.picture), |q, picture| {
                q.picture = picture
            }),
        ];
        Box::new(all.into_iter().flatten())
    }

    fn text(&self) -> String {
        let (w, h) = self.sizes;
        format!(
            "border {w} {h} {} shift {}\n{}\n",
            hex(self.color),
            self.shift,
            bytes(&self.picture)
        )
    }
}

pub fn read(words: &mut Words) -> Result<Border, String> {
    Ok(Border {
        sizes: (words.number()?, words.number()?),
        color: words.color()?,
        shift: words.past("shift")?.number()?,
        picture: words.bytes()?,
    })
}
