//! Jobs on lent buffers: a run on a canvas, and the rows of a plan.

use super::{Plan, Ran, RowAnswer, ThermalImage, Translated};
use crate::error::{done, Error};
use crate::job::Dropped;
use crate::raw;

// SAFETY, in all of these: each address and length are those of a slice that is lent for the call.

/// Draws a job on a canvas without rows.
pub fn run(job: &[u8], buf: &mut [u8]) -> Ran {
    let (b, n) = (buf.as_mut_ptr(), buf.len());
    unsafe { raw::thermal_run(job.as_ptr(), job.len(), b, n) }
}

/// Translates a job without flips to a row plan.
pub fn translate(job: &[u8]) -> Translated {
    unsafe { raw::thermal_translate(job.as_ptr(), job.len()) }
}

/// Writes out one row of a plan. `data` is the job that it is of.
pub fn row(plan: &Plan, row: u32, data: &[u8], line: &mut [u8]) -> RowAnswer {
    let (l, n) = (line.as_mut_ptr(), line.len());
    unsafe { raw::thermal_row(*plan, row, data.as_ptr(), data.len(), l, n) }
}

/// Writes out `count` rows of a plan from row `first` on, one after the other, and gives the number.
/// `data` is the job that it is of.
pub fn rows(plan: &Plan, first: u32, count: u32, data: &[u8], buf: &mut [u8]) -> u8 {
    let (b, n) = (buf.as_mut_ptr(), buf.len());
    unsafe { raw::thermal_rows(*plan, first, count, data.as_ptr(), data.len(), b, n) }
}

impl Ran {
    /// The dropped commands, in order.
    pub fn dropped(&self) -> &[Dropped] {
        &self.dropped[..self.dropped_count]
    }

    /// The canvas.
    pub fn done(&self) -> Result<ThermalImage, Error> {
        done(self.number, self.image)
    }
}

impl Translated {
    /// The plan.
    pub fn done(self) -> Result<Plan, Error> {
        done(self.number, self.plan)
    }
}

impl RowAnswer {
    /// How many dots of the row have ink.
    pub fn done(self) -> Result<u32, Error> {
        done(self.number, self.ink)
    }
}
