//! A history asked alone, and how it is made smaller.

use super::pair::Pair;
use super::text;
use crate::question::{below, blanker, parts, plainer, vary, Question};
use crate::space::Space;
use oracle::canvas::cases::{Case, Step};
use oracle::canvas::{Area, Operation};
use oracle::random::Random;

#[derive(Clone)]
pub struct History {
    /// The bytes that can be lent.
    pub capacity: usize,
    /// Where the two buffers begin.
    pub shifts: [usize; 2],
    pub steps: Vec<Step>,
}

impl Question for History {
    fn difference(&self) -> Option<String> {
        let mut random = Random::new(0);
        let mut spaces = [0; 2].map(|_| Space::new(self.capacity, &mut random));
        let mut pair = Pair::new(&mut spaces, self.shifts);
        let mut verdicts = self.steps.iter().map(|step| pair.step(step));
        verdicts.find_map(|verdict| verdict.and_then(|v| v.difference))
    }

    /// Fewer steps, then smaller ones, the last first.
    fn smaller(&self) -> Box<dyn Iterator<Item = Self> + '_> {
        let fewer = vary(self, parts(self.steps.len()), |q, (from, count)| {
            q.steps.drain(from..from + count);
        });
        let steps = (0..self.steps.len()).rev().flat_map(|i| {
            let smaller = smaller_step(&self.steps[i]);
            vary(self, smaller, move |q, step| q.steps[i] = step)
        });
        let shifts = (0..2).flat_map(|i| {
            let smaller = below(self.shifts[i]);
            vary(self, smaller, move |q, shift| q.shifts[i] = shift)
        });
        Box::new(fewer.chain(steps).chain(shifts))
    }

    fn text(&self) -> String {
        text::write(self)
    }
}

fn smaller_step(step: &Step) -> Box<dyn Iterator<Item = Step> + '_> {
    match step {
        Step::Growth(_) => Box::new(std::iter::empty()),
        Step::Paper(color) => Box::new(plainer(*color).map(Step::Paper)),
        Step::Dots(dots) => {
            let shorter = (!dots.is_empty()).then(Vec::new).into_iter();
            Box::new(shorter.chain(blanker(dots)).map(Step::Dots))
        }
        Step::Call(case) => Box::new(smaller_case(case).map(Step::Call)),
    }
}

fn smaller_case(case: &Case) -> impl Iterator<Item = Case> + '_ {
    let with = |operation| Case {
        operation,
        ..case.clone()
    };
    let operations = smaller_operation(&case.operation).map(with);
    let canvas = below(case.lent.canvas).map(|canvas| {
        let mut other = case.clone();
        other.lent.canvas = canvas;
        other
    });
    let out = below(case.lent.out).map(|out| {
        let mut other = case.clone();
        other.lent.out = out;
        other
    });
    operations.chain(canvas).chain(out)
}

fn smaller_operation(operation: &Operation) -> Box<dyn Iterator<Item = Operation> + '_> {
    match *operation {
        Operation::New(n) => Box::new(below(n).map(Operation::New)),
        Operation::ExpandToHeight(n) => Box::new(below(n).map(Operation::ExpandToHeight)),
        Operation::ExpandToWidth(n) => Box::new(below(n).map(Operation::ExpandToWidth)),
        Operation::AddTopMargin(n) => Box::new(below(n).map(Operation::AddTopMargin)),
        Operation::SetWidth(n) => Box::new(below(n).map(Operation::SetWidth)),
        Operation::FlipPixels(area) => Box::new(smaller_areas(area).map(Operation::FlipPixels)),
        Operation::PutPixels {
            area,
            ref pixels,
            multiply,
        } => {
            Box::new(
                smaller_images(area, pixels).map(move |(area, pixels)| Operation::PutPixels {
                    area,
                    pixels,
                    multiply,
                }),
            )
        }
        Operation::PutRenderImg {
            area,
            ref pixels,
            upside_down,
        } => Box::new(smaller_images(area, pixels).map(move |(area, pixels)| {
            Operation::PutRenderImg {
                area,
                pixels,
                upside_down,
            }
        })),
        Operation::DrawRect {
            area,
            color,
            multiply,
        } => Box::new(
            smaller_colored(area, color).map(move |(area, color)| Operation::DrawRect {
                area,
                color,
                multiply,
            }),
        ),
        Operation::PutRect { area, color } => Box::new(
            smaller_colored(area, color).map(|(area, color)| Operation::PutRect { area, color }),
        ),
        Operation::GetHeight
        | Operation::Empty
        | Operation::Reset
        | Operation::Copy
        | Operation::ConsumeRgb
        | Operation::Rotate(_) => Box::new(std::iter::empty()),
    }
}

fn smaller_areas(area: Area) -> impl Iterator<Item = Area> {
    let x = below(area.x).map(move |x| Area { x, ..area });
    let y = below(area.y).map(move |y| Area { y, ..area });
    let w = below(area.w).map(move |w| Area { w, ..area });
    let h = below(area.h).map(move |h| Area { h, ..area });
    w.chain(h).chain(x).chain(y)
}

fn smaller_colored(area: Area, color: u32) -> impl Iterator<Item = (Area, u32)> {
    let areas = smaller_areas(area).map(move |area| (area, color));
    areas.chain(plainer(color).map(move |color| (area, color)))
}

/// An area with as many pixels as it has dots keeps them so.
fn smaller_images(area: Area, pixels: &[u8]) -> impl Iterator<Item = (Area, Vec<u8>)> + '_ {
    let areas = smaller_areas(area).map(|area| {
        let most = 4 * u64::from(area.w) * u64::from(area.h);
        let kept = pixels
            .len()
            .min(usize::try_from(most).unwrap_or(usize::MAX));
        (area, pixels[..kept].to_vec())
    });
    let shorter = below::<usize>(pixels.len() / 4).map(move |n| (area, pixels[..4 * n].to_vec()));
    let blanker = blanker(pixels).map(move |pixels| (area, pixels));
    areas.chain(shorter).chain(blanker)
}
