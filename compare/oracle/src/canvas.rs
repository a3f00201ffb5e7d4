//! The canvas: its operations, and what the original makes of them.

pub mod cases;

use crate::colour::{number, rgba};
use crate::stops::answer;
use thermal_parser::graphics::{Image, ImageFlow, Rectangle, RGBA};
use thermal_renderer::image_renderer::thermal_image::ThermalImage;

/// A canvas but for its dots.
#[derive(Clone, Copy, Debug, PartialEq, Eq)]
pub struct Record {
    pub width: u32,
    pub height: u32,
    pub auto_grow: bool,
    pub paper_color: u32,
}

#[derive(Clone, Copy, Debug, PartialEq, Eq)]
pub struct Area {
    pub x: u32,
    pub y: u32,
    pub w: u32,
    pub h: u32,
}

#[derive(Clone, Copy, Debug, PartialEq, Eq)]
pub enum Turn {
    By90,
    By180,
    By270,
}

/// A call. Pixels are bytes, r, g, b, a each.
#[derive(Clone, Debug)]
pub enum Operation {
    New(u32),
    GetHeight,
    ExpandToHeight(u32),
    ExpandToWidth(u32),
    AddTopMargin(u32),
    SetWidth(u32),
    Empty,
    Reset,
    Copy,
    ConsumeRgb,
    Rotate(Turn),
    PutPixels {
        area: Area,
        pixels: Vec<u8>,
        multiply: bool,
    },
    DrawRect {
        area: Area,
        color: u32,
        multiply: bool,
    },
    PutRect {
        area: Area,
        color: u32,
    },
    PutRenderImg {
        area: Area,
        pixels: Vec<u8>,
        upside_down: bool,
    },
    FlipPixels(Area),
}

impl Operation {
    pub const NAMES: [&'static str; 13] = [
        "new",
        "get_height",
        "expand_to_height",
        "expand_to_width",
        "add_top_margin",
        "set_width",
        "empty",
        "reset",
        "copy",
        "consume_rgb_u8",
        "rotate_90",
        "rotate_180",
        "rotate_270",
    ];

    pub const DRAWING_NAMES: [&'static str; 6] = [
        "put_pixels",
        "draw_rect",
        "put_rect",
        "put_render_img",
        "put_render_img, upside down",
        "flip_pixels",
    ];

    pub fn name(&self) -> &'static str {
        let [new, get_height, to_height, to_width, margin, set_width, empty, reset, copy, rgb, by_90, by_180, by_270] =
            Self::NAMES;
        let [put, draw_rect, put_rect, image, upside_down, flip] = Self::DRAWING_NAMES;
        match self {
            Operation::New(_) => new,
            Operation::GetHeight => get_height,
            Operation::ExpandToHeight(_) => to_height,
            Operation::ExpandToWidth(_) => to_width,
            Operation::AddTopMargin(_) => margin,
            Operation::SetWidth(_) => set_width,
            Operation::Empty => empty,
            Operation::Reset => reset,
            Operation::Copy => copy,
            Operation::ConsumeRgb => rgb,
            Operation::Rotate(Turn::By90) => by_90,
            Operation::Rotate(Turn::By180) => by_180,
            Operation::Rotate(Turn::By270) => by_270,
            Operation::PutPixels { .. } => put,
            Operation::DrawRect { .. } => draw_rect,
            Operation::PutRect { .. } => put_rect,
            Operation::PutRenderImg {
                upside_down: false, ..
            } => image,
            Operation::PutRenderImg { .. } => upside_down,
            Operation::FlipPixels(_) => flip,
        }
    }

    /// Where it draws.
    pub fn area(&self) -> Option<&Area> {
        match self {
            Operation::PutPixels { area, .. }
            | Operation::DrawRect { area, .. }
            | Operation::PutRect { area, .. }
            | Operation::PutRenderImg { area, .. }
            | Operation::FlipPixels(area) => Some(area),
            _ => None,
        }
    }
}

/// What the original hands out beside the canvas. A flip that returns early is done here: nothing
/// tells it apart but the canvas, which stays.
#[derive(Clone, Debug, PartialEq)]
pub enum Answer {
    Done,
    Refused,
    Height(u32),
    Bytes { w: u32, h: u32, bytes: Vec<u8> },
}

/// The original's canvas.
pub struct Canvas(pub ThermalImage);

impl Canvas {
    pub fn new(width: u32) -> Self {
        Canvas(ThermalImage::new(width))
    }

    /// A canvas with these dots. It is grown dot by dot, one dot wide, with each dot as the paper.
    pub fn of(record: &Record, dots: &[u8]) -> Self {
        let mut image = ThermalImage::new(1);
        for (height, dot) in (1..).zip(dots.chunks_exact(4)) {
            image.paper_color = pixel(dot);
            image.expand_to_height(height);
        }
        image.width = record.width;
        let mut canvas = Canvas(image);
        canvas.set_growth(record.auto_grow);
        canvas.set_paper(record.paper_color);
        assert_eq!(canvas.record(), *record);
        canvas
    }

    pub fn set_growth(&mut self, auto_grow: bool) {
        self.0.auto_grow = auto_grow;
    }

    pub fn set_paper(&mut self, paper_color: u32) {
        self.0.paper_color = rgba(paper_color);
    }

    pub fn record(&self) -> Record {
        Record {
            width: self.0.width,
            height: self.0.get_height(),
            auto_grow: self.0.auto_grow,
            paper_color: number(self.0.paper_color),
        }
    }

    /// The dots' bytes.
    pub fn dots(&mut self) -> Vec<u8> {
        bytes(&self.0.copy().2)
    }

    /// What the original answers, or nothing where it stops.
    pub fn apply(&mut self, operation: &Operation) -> Option<Answer> {
        let errors = self.0.errors.len();
        let answer = answer(|| self.call(operation))?;
        // It keeps an error for each put that it refuses.
        if self.0.errors.len() > errors {
            self.0.errors.clear();
            return Some(Answer::Refused);
        }
        Some(answer)
    }

    fn call(&mut self, operation: &Operation) -> Answer {
        let image = &mut self.0;
        match *operation {
            Operation::New(width) => *image = ThermalImage::new(width),
            Operation::GetHeight => return Answer::Height(image.get_height()),
            Operation::ExpandToHeight(height) => image.expand_to_height(height),
            Operation::ExpandToWidth(width) => image.expand_to_width(width),
            Operation::AddTopMargin(height) => image.add_top_margin(height),
            Operation::SetWidth(width) => image.set_width(width),
            Operation::Empty => image.empty(),
            Operation::Reset => image.reset(),
            Operation::Copy => {
                let (w, h, dots) = image.copy();
                let bytes = bytes(&dots);
                return Answer::Bytes { w, h, bytes };
            }
            Operation::ConsumeRgb => {
                let (w, h, bytes) = image.consume_rgb_u8();
                return Answer::Bytes { w, h, bytes };
            }
            Operation::Rotate(Turn::By90) => image.rotate_90(),
            Operation::Rotate(Turn::By180) => image.rotate_180(),
            Operation::Rotate(Turn::By270) => image.rotate_270(),
            Operation::PutPixels {
                area: Area { x, y, w, h },
                ref pixels,
                multiply,
            } => {
                if !image.put_pixels(x, y, w, h, pixels_of(pixels), false, multiply) {
                    return Answer::Refused;
                }
            }
            Operation::DrawRect {
                area: Area { x, y, w, h },
                color,
                multiply,
            } => image.draw_rect(x, y, w, h, &rgba(color), multiply),
            Operation::PutRect {
                area: Area { x, y, w, h },
                color,
            } => image.put_rect(&Rectangle { x, y, w, h }, &rgba(color)),
            Operation::PutRenderImg {
                area: Area { x, y, w, h },
                ref pixels,
                upside_down,
            } => image.put_render_img(&Image {
                pixels: pixels_of(pixels),
                x,
                y,
                w,
                h,
                flow: ImageFlow::None,
                upside_down,
            }),
            Operation::FlipPixels(Area { x, y, w, h }) => image.flip_pixels(x, y, w, h),
        }
        Answer::Done
    }
}

/// A picture after its border is drawn, or nothing where the original stops.
pub fn draw_border(dots: &[u8], width: u32, height: u32, color: u32) -> Option<Vec<u8>> {
    answer(|| {
        let mut dots = pixels_of(dots);
        ThermalImage::draw_border(&mut dots, width, height, &rgba(color));
        bytes(&dots)
    })
}

fn pixel(dot: &[u8]) -> RGBA {
    rgba(u32::from_le_bytes(dot.try_into().unwrap()))
}

pub fn pixels_of(bytes: &[u8]) -> Vec<RGBA> {
    let dots = bytes.chunks_exact(4);
    let rest = dots.remainder();
    assert!(rest.is_empty(), "the original has no part of a pixel");
    dots.map(pixel).collect()
}

fn bytes(dots: &[RGBA]) -> Vec<u8> {
    dots.iter()
        .flat_map(|&dot| number(dot).to_le_bytes())
        .collect()
}

#[cfg(test)]
mod tests {
    use super::{Answer, Area, Canvas, Operation, Record};

    #[test]
    fn a_canvas_of_given_dots() {
        let record = Record {
            width: 2,
            height: 3,
            auto_grow: false,
            paper_color: 7,
        };
        let dots: Vec<u8> = (0..24).collect();
        let mut canvas = Canvas::of(&record, &dots);
        assert_eq!((canvas.record(), canvas.dots()), (record, dots));
    }

    #[test]
    fn an_empty_put_grows() {
        let mut canvas = Canvas::new(10);
        let area = Area {
            x: 0,
            y: 7,
            w: 0,
            h: 0,
        };
        let put = Operation::PutPixels {
            area,
            pixels: Vec::new(),
            multiply: false,
        };
        assert_eq!(canvas.apply(&put), Some(Answer::Done));
        assert_eq!(canvas.record().height, 7);
    }

    #[test]
    fn a_put_beside_the_paper_is_refused() {
        let mut canvas = Canvas::new(10);
        for (x, answer) in [(9, Answer::Done), (10, Answer::Refused)] {
            let area = Area {
                x,
                y: 0,
                w: 1,
                h: 1,
            };
            let rect = Operation::PutRect { area, color: 0 };
            assert_eq!(canvas.apply(&rect), Some(answer));
        }
    }
}
