//! Jobs: the bytes of a strip, drawn on a canvas as a whole or worked out row by row.
//!
//! ```
//! use thermal::job::{run, Plan};
//! use thermal::{Error, Rgba};
//!
//! // Paper 10 dots wide, and a black rectangle that is cropped at its edge.
//! let job = [
//!     10, 0, 0, 0, 1, 0, 10, 0, 0, 0, 255, 255, 255, 255,
//!     23, 0, 0, 0, 2, 0, 8, 0, 0, 0, 1, 0, 0, 0, 5, 0, 0, 0, 1, 0, 0, 0, 0, 0, 0, 255, 1,
//! ];
//! let strip = run(&job)?;
//! assert_eq!((strip.canvas.width(), strip.canvas.get_height()), (10, 2));
//! assert_eq!(strip.canvas.dot(9, 1), Some(Rgba::BLACK));
//! assert!(strip.dropped.is_empty());
//!
//! let plan = Plan::translate(&job)?;
//! let row = plan.row(1, &job)?;
//! assert_eq!(row.ink, 2);
//! assert_eq!(row.dots, strip.canvas.dots()[40..]);
//! assert_eq!(plan.row(2, &job), Err(Error::NoRow));
//! assert_eq!(plan.rows(&job)?, strip.canvas.dots());
//!
//! assert_eq!(run(&job[..20]).err(), Some(Error::BadJob));
//! # Ok::<(), Error>(())
//! ```

use crate::error::done;
use crate::lent;
use crate::room::lend;
use crate::{Canvas, Error};

pub use crate::raw::{Dropped, Entry, Plan, MOST_COMMANDS};

/// What a job draws.
#[derive(Clone)]
pub struct Strip {
    pub canvas: Canvas,
    /// The commands that were dropped, in order.
    pub dropped: Vec<Dropped>,
}

/// Draws a job on a canvas. Commands that cannot be drawn are dropped, and the others are drawn.
///
/// ```
/// use thermal::Error;
/// # let paper = [10, 0, 0, 0, 1, 0, 10, 0, 0, 0, 255, 255, 255, 255];
/// # let flip = [18, 0, 0, 0, 5, 0, 0, 0, 0, 0, 0, 0, 0, 0, 11, 0, 0, 0, 1, 0, 0, 0];
/// // A flip of 11 columns does not fit paper that is 10 wide.
/// let strip = thermal::job::run(&[&paper[..], &flip].concat())?;
/// assert_eq!(strip.canvas.get_height(), 0);
/// assert_eq!((strip.dropped[0].place, strip.dropped[0].error()), (0, Error::OffPaper));
/// # Ok::<(), Error>(())
/// ```
pub fn run(job: &[u8]) -> Result<Strip, Error> {
    // Its plan tells how much room a job needs. One with flips has none: there the room is found.
    let room = match Plan::translate(job) {
        Ok(plan) => 4 * plan.width as usize * plan.height as usize,
        Err(Error::NotTranslated) => 0,
        Err(error) => return Err(error),
    };
    let mut buf = vec![0; room];
    let (image, dropped) = lend(&mut buf, |buf| {
        let ran = lent::run(job, buf);
        ran.done().map(|image| (image, ran.dropped().to_vec()))
    })?;
    let canvas = Canvas::of(image, buf);
    Ok(Strip { canvas, dropped })
}

/// A row of a plan: its dots, four bytes r, g, b, a each, and how many of them have ink.
#[derive(Clone, Debug, PartialEq, Eq)]
pub struct Row {
    pub dots: Vec<u8>,
    pub ink: u32,
}

/// A plan holds places in the job's bytes, and not the bytes. Its fields are open, and what is
/// changed in them is looked over anew by each call: a plan that breaks the rules is refused.
impl Plan {
    /// The plan of a job without flips.
    ///
    /// ```
    /// # use thermal::{job::Plan, Error};
    /// assert_eq!(Plan::translate(&[]), Err(Error::BadJob));
    /// ```
    pub fn translate(job: &[u8]) -> Result<Plan, Error> {
        lent::translate(job).done()
    }

    /// Works out one row alone. `data` is the job that the plan is of.
    pub fn row(&self, row: u32, data: &[u8]) -> Result<Row, Error> {
        // A plan wider than that is refused before its room is looked at.
        let width = self.width.min(Canvas::LIMIT);
        let mut dots = vec![0; 4 * width as usize];
        let ink = lent::row(self, row, data, &mut dots).done()?;
        Ok(Row { dots, ink })
    }

    /// Works out all rows at once, without their ink: the dots of the canvas that [`run`] draws.
    pub fn rows(&self, data: &[u8]) -> Result<Vec<u8>, Error> {
        // A plan that is refused is not given any room.
        let mut buf = Vec::new();
        if lent::rows(self, 0, self.height, data, &mut buf) == Error::NoRoom as u8 {
            buf = vec![0; 4 * self.width as usize * self.height as usize];
        }
        done(lent::rows(self, 0, self.height, data, &mut buf), buf)
    }

    /// The entries that are used, in the order in which they are drawn.
    pub fn entries(&self) -> &[Entry] {
        &self.entries[..self.count.min(MOST_COMMANDS)]
    }

    /// The dropped commands, in order.
    pub fn dropped(&self) -> &[Dropped] {
        &self.dropped[..self.dropped_count.min(MOST_COMMANDS)]
    }
}

impl Entry {
    pub const RECTANGLE: u8 = 2;
    pub const IMAGE: u8 = 3;
    pub const BLEND: u8 = 0;
    pub const MULTIPLY: u8 = 1;
}

impl Dropped {
    /// Why it was dropped.
    pub fn error(self) -> Error {
        Error::of(self.reason).expect("a dropped command has a refusal's number")
    }
}
