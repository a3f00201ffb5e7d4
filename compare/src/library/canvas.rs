//! The canvas. Its dots are the first bytes of a lent buffer.

use super::{number, rgba};
use oracle::canvas::{Area, Operation, Record, Turn};
use thermal::lent::{self, Copied, Rectangle, Rgb, ThermalImage};

/// What a call gives: the number, the next canvas and the sizes of what is written out, as far as
/// the operation answers them.
#[derive(Clone, Copy, Debug, PartialEq, Eq)]
pub enum Answer {
    Height(u32),
    Canvas(u8, Record),
    Copied(u8, (u32, u32)),
    Rgb(u8, Record, (u32, u32)),
}

impl From<lent::Answer> for Answer {
    fn from(answer: lent::Answer) -> Self {
        Answer::Canvas(answer.number, record(answer.image))
    }
}

impl From<Copied> for Answer {
    fn from(answer: Copied) -> Self {
        Answer::Copied(answer.number, (answer.width, answer.height))
    }
}

impl From<Rgb> for Answer {
    fn from(answer: Rgb) -> Self {
        let sizes = (answer.width, answer.height);
        Answer::Rgb(answer.number, record(answer.image), sizes)
    }
}

/// Calls an operation with a record and two buffers, the canvas's and one to write out to.
pub fn call(operation: &Operation, given: &Record, buf: &mut [u8], out: &mut [u8]) -> Answer {
    let image = image(given);
    match *operation {
        Operation::New(width) => ThermalImage::new(width).into(),
        Operation::GetHeight => Answer::Height(image.get_height()),
        Operation::ExpandToHeight(height) => image.expand_to_height(height, buf).into(),
        Operation::AddTopMargin(rows) => image.add_top_margin(rows, buf).into(),
        Operation::ExpandToWidth(width) => image.expand_to_width(width, buf).into(),
        Operation::SetWidth(width) => image.set_width(width, buf).into(),
        Operation::Empty => image.empty(buf).into(),
        Operation::Reset => image.reset(buf).into(),
        Operation::Copy => image.copy(buf, out).into(),
        Operation::ConsumeRgb => image.consume_rgb_u8(buf, out).into(),
        Operation::Rotate(Turn::By90) => image.rotate_90(buf, out).into(),
        Operation::Rotate(Turn::By180) => image.rotate_180(buf, out).into(),
        Operation::Rotate(Turn::By270) => image.rotate_270(buf, out).into(),
        Operation::PutPixels {
            area,
            ref pixels,
            multiply,
        } => image
            .put_pixels(rectangle(area), pixels, multiply, buf)
            .into(),
        Operation::DrawRect {
            area,
            color,
            multiply,
        } => image
            .draw_rect(rectangle(area), rgba(color), multiply, buf)
            .into(),
        Operation::PutRect { area, color } => {
            image.put_rect(rectangle(area), rgba(color), buf).into()
        }
        Operation::PutRenderImg {
            area,
            ref pixels,
            upside_down,
        } => image
            .put_render_img(rectangle(area), pixels, upside_down, buf)
            .into(),
        Operation::FlipPixels(area) => image.flip_pixels(rectangle(area), buf).into(),
    }
}

pub fn draw_border(w: u32, h: u32, color: u32, buf: &mut [u8]) -> u8 {
    lent::draw_border(w, h, rgba(color), buf)
}

fn image(record: &Record) -> ThermalImage {
    ThermalImage {
        width: record.width,
        height: record.height,
        auto_grow: record.auto_grow,
        paper_color: rgba(record.paper_color),
    }
}

pub(super) fn record(image: ThermalImage) -> Record {
    Record {
        width: image.width,
        height: image.height,
        auto_grow: image.auto_grow,
        paper_color: number(image.paper_color),
    }
}

fn rectangle(area: Area) -> Rectangle {
    let Area { x, y, w, h } = area;
    Rectangle { x, y, w, h }
}
