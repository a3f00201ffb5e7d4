//! Draws a strip and writes it as a picture, in the format PPM, that an image viewer opens: the strip
//! of a job's file, or one that is drawn here call by call.
//!
//!     cargo run --example picture strip.ppm ../../examples/mark.job
//!     cargo run --example picture strip.ppm

use std::error::Error;
use std::{env, fs};
use thermal::job;
use thermal::{image_from_raster_bytes_single_color, Canvas, Image, Rectangle, Rgba, Sizes};

/// Dots across the paper.
const PAPER: u32 = 160;

/// A signal on its post, a row of 16 bits each.
const MARK: [u16; 16] = [
    0b0000011111100000,
    0b0000111111110000,
    0b0001110000111000,
    0b0001100110011000,
    0b0001101111011000,
    0b0001101111011000,
    0b0001100110011000,
    0b0001110000111000,
    0b0000111111110000,
    0b0000011111100000,
    0b0000000110000000,
    0b0000000110000000,
    0b0000000110000000,
    0b0000000110000000,
    0b0000111111110000,
    0b0001111111111000,
];

fn main() -> Result<(), Box<dyn Error>> {
    let mut words = env::args().skip(1);
    let path = words.next().ok_or("usage: picture FILE.ppm [JOB]")?;
    let canvas = match words.next() {
        Some(file) => of_job(&fs::read(file)?)?,
        None => strip()?,
    };
    println!("{} by {} dots", canvas.width(), canvas.get_height());
    fs::write(path, ppm(canvas))?;
    Ok(())
}

/// What a job draws. Its dropped commands are told.
fn of_job(bytes: &[u8]) -> Result<Canvas, thermal::Error> {
    let strip = job::run(bytes)?;
    for dropped in &strip.dropped {
        println!("command {} is dropped: {}", dropped.place, dropped.error());
    }
    Ok(strip.canvas)
}

/// The mark in its frame, a translucent band that the paper's edge cuts, and a margin.
fn strip() -> Result<Canvas, thermal::Error> {
    let mut canvas = Canvas::new(PAPER)?;
    let mark = mark()?;
    let framed = Rectangle {
        x: 16,
        y: 0,
        w: mark.w + 16,
        h: mark.h + 16,
    };
    frame(&mut canvas, framed, 2)?;
    canvas.put_render_img(framed.x + 8, framed.y + 8, &mark, false)?;
    let band = Rectangle {
        x: 60,
        y: framed.h / 2,
        w: PAPER,
        h: 16,
    };
    canvas.draw_rect(band, Rgba::new(200, 30, 30, 128), false)?;
    canvas.add_top_margin(24)?;
    canvas.expand_to_height(canvas.get_height() + 24)?;
    Ok(canvas)
}

/// Each dot of the mark is four by four of the paper's.
fn mark() -> Result<Image, thermal::Error> {
    let bits: Vec<u8> = MARK.iter().flat_map(|row| row.to_be_bytes()).collect();
    let sizes = Sizes {
        width: 16,
        height: 16,
        stretch: (4, 4),
    };
    image_from_raster_bytes_single_color(sizes, Rgba::BLACK, &bits, true)
}

/// The four sides of an area, `thick` dots each.
fn frame(canvas: &mut Canvas, area: Rectangle, thick: u32) -> Result<(), thermal::Error> {
    let Rectangle { x, y, w, h } = area;
    let sides = [
        (x, y, w, thick),
        (x, y + h - thick, w, thick),
        (x, y, thick, h),
        (x + w - thick, y, thick, h),
    ];
    for (x, y, w, h) in sides {
        canvas.put_rect(Rectangle { x, y, w, h }, Rgba::BLACK)?;
    }
    Ok(())
}

fn ppm(mut canvas: Canvas) -> Vec<u8> {
    let (width, height, rgb) = canvas.consume_rgb_u8();
    let head = format!("P6\n{width} {height}\n255\n");
    [head.into_bytes(), rgb].concat()
}
