//! Jobs: a run on a canvas, and row plans.

use super::{Rgba, ThermalImage};

/// The most commands of a job, and entries of a plan.
pub const MOST_COMMANDS: usize = 64;

/// A command that is dropped: its place, which is 0 for the first after the paper, and its number.
#[repr(C)]
#[derive(Clone, Copy, Debug, Default, PartialEq, Eq)]
pub struct Dropped {
    pub place: u32,
    pub reason: u8,
}

/// A run's number, the canvas, and the dropped commands, which are the first `dropped_count`.
#[repr(C)]
#[derive(Clone, Copy, Debug, PartialEq, Eq)]
pub struct Ran {
    pub number: u8,
    pub image: ThermalImage,
    pub dropped_count: usize,
    pub dropped: [Dropped; MOST_COMMANDS],
}

/// An entry of a plan: a rectangle or an image in its place, cropped. A rectangle has zero in the
/// factors, the original sizes and `start`; an image's bit rows stand in the job's bytes from `start`
/// on.
#[repr(C)]
#[derive(Clone, Copy, Debug, Default, PartialEq, Eq)]
pub struct Entry {
    pub kind: u8,
    pub mode: u8,
    pub stretch_x: u8,
    pub stretch_y: u8,
    pub color: Rgba,
    pub x: u32,
    pub y: u32,
    pub w: u32,
    pub h: u32,
    pub original_width: u32,
    pub original_height: u32,
    pub start: usize,
}

/// A row plan. Its entries are the first `count`, and its dropped commands the first
/// `dropped_count`; all other places are zero.
#[repr(C)]
#[derive(Clone, Copy, Debug, PartialEq, Eq)]
pub struct Plan {
    pub width: u32,
    pub height: u32,
    pub paper_color: Rgba,
    pub count: usize,
    pub entries: [Entry; MOST_COMMANDS],
    pub dropped_count: usize,
    pub dropped: [Dropped; MOST_COMMANDS],
}

/// A translation's number, and the plan.
#[repr(C)]
#[derive(Clone, Copy, Debug, PartialEq, Eq)]
pub struct Translated {
    pub number: u8,
    pub plan: Plan,
}

/// A row's number, and how many of its dots have ink.
#[repr(C)]
#[derive(Clone, Copy, Debug, PartialEq, Eq)]
pub struct RowAnswer {
    pub number: u8,
    pub ink: u32,
}

unsafe extern "C" {
    pub fn thermal_run(job: *const u8, job_length: usize, buf: *mut u8, length: usize) -> Ran;
    pub fn thermal_translate(job: *const u8, job_length: usize) -> Translated;
    pub fn thermal_row(
        plan: Plan,
        row: u32,
        data: *const u8,
        data_length: usize,
        line: *mut u8,
        length: usize,
    ) -> RowAnswer;
    pub fn thermal_rows(
        plan: Plan,
        first: u32,
        count: u32,
        data: *const u8,
        data_length: usize,
        buf: *mut u8,
        length: usize,
    ) -> u8;
}
