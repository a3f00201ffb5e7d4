//! A canvas as wide as a receipt and a metre long. The original makes a vector anew for most of
//! its work, this library works in two lent buffers.

use super::{print, time, Row, ROUNDS};
use crate::library::canvas::{call, Answer};
use oracle::canvas::{self, Area, Canvas, Operation, Record, Turn};
use oracle::random::Random;
use oracle::rules::DONE;
use oracle::thermal_parser::graphics::RGBA;
use std::hint::black_box;

const WIDTH: u32 = 576;
const HEIGHT: u32 = 8_000;

struct Work {
    name: &'static str,
    /// The canvas's sizes before it.
    sizes: (u32, u32),
    operation: Operation,
    /// How often the original is measured: its widening takes ten seconds.
    rounds: usize,
}

impl Work {
    fn new(name: &'static str, sizes: (u32, u32), operation: Operation) -> Self {
        let rounds = match operation {
            Operation::ExpandToWidth(_) => 1,
            _ => ROUNDS,
        };
        Work {
            name,
            sizes,
            operation,
            rounds,
        }
    }
}

fn works(random: &mut Random) -> Vec<Work> {
    let whole = (WIDTH, HEIGHT);
    let work = Work::new;
    let works = vec![
        work(
            "growing by 4000 rows",
            (WIDTH, HEIGHT - 4_000),
            Operation::ExpandToHeight(HEIGHT),
        ),
        work(
            "top margin of 100 rows",
            (WIDTH, HEIGHT - 100),
            Operation::AddTopMargin(100),
        ),
        work(
            "widening from 512 (Rust once)",
            (512, HEIGHT),
            Operation::ExpandToWidth(WIDTH),
        ),
        work("rotation by 90", whole, Operation::Rotate(Turn::By90)),
        work("rotation by 180", whole, Operation::Rotate(Turn::By180)),
        work("rotation by 270", whole, Operation::Rotate(Turn::By270)),
        work("RGB output", whole, Operation::ConsumeRgb),
    ];
    works.into_iter().chain(drawing(random)).collect()
}

fn drawing(random: &mut Random) -> Vec<Work> {
    let area = Area {
        x: 0,
        y: 0,
        w: WIDTH,
        h: HEIGHT,
    };
    let rectangle = |name, alpha, multiply| {
        let operation = Operation::DrawRect {
            area,
            color: u32::from_le_bytes([200, 100, 30, alpha]),
            multiply,
        };
        Work::new(name, (WIDTH, HEIGHT), operation)
    };
    let mut image = |name, alpha: fn(u8) -> u8, multiply| {
        let mut pixels = noise(4 * (WIDTH * HEIGHT) as usize, random);
        pixels
            .iter_mut()
            .skip(3)
            .step_by(4)
            .for_each(|a| *a = alpha(*a));
        let operation = Operation::PutPixels {
            area,
            pixels,
            multiply,
        };
        Work::new(name, (WIDTH, HEIGHT), operation)
    };
    let bit = |a| if a < 128 { 0 } else { 255 };
    vec![
        rectangle("rectangle, opaque", 255, false),
        rectangle("rectangle, translucent", 128, false),
        rectangle("rectangle, multiplied", 255, true),
        rectangle("rectangle, multiplied, translucent", 128, true),
        image("image, opaque", |_| 255, false),
        image("image, translucent", |a| a, false),
        image("image of bits, blended", bit, false),
        image("image of bits, multiplied", bit, true),
        image("image, multiplied, translucent", |a| a, true),
        Work::new("flip", (WIDTH, HEIGHT), Operation::FlipPixels(area)),
    ]
}

pub fn measure() {
    let mut random = Random::new(1);
    let length = 4 * (WIDTH * HEIGHT) as usize;
    let dots = noise(length, &mut random);
    let works = works(&mut random);
    let mut rows: Vec<Row> = works.iter().map(|work| Row::new(work.name)).collect();
    let (mut buf, mut out) = (dots.clone(), dots.clone());
    let mut clear = Vec::new();

    for round in 0..ROUNDS {
        for (work, row) in works.iter().zip(&mut rows) {
            let given = Record {
                width: work.sizes.0,
                height: work.sizes.1,
                auto_grow: true,
                paper_color: 0xff20_40c0,
            };
            let start = &dots[..4 * (given.width * given.height) as usize];
            // A copy of so much at once would go past the caches, in which the original finds its own.
            for (to, from) in buf.chunks_mut(1 << 16).zip(start.chunks(1 << 16)) {
                to[..from.len()].copy_from_slice(from);
            }
            let mut ours = None;
            row.ours.push(time(|| {
                ours = Some(call(black_box(&work.operation), &given, &mut buf, &mut out));
            }));
            if round >= work.rounds {
                continue;
            }
            // Neither an answer nor the time to free it counts.
            let mut canvas = Canvas::of(&given, start);
            let mut rust = None;
            let pixels = pixels_of(&work.operation);
            row.rust.push(time(|| {
                rust = apply(&mut canvas, black_box(&work.operation), pixels);
            }));
            if round == 0 {
                assert!(
                    same(&work.operation, &mut canvas, rust, ours, [&buf, &out]),
                    "{}: the answers differ",
                    work.name
                );
            }
        }
        clear.push(time(|| black_box(&mut buf).fill(0)));
    }
    print(&format!("{WIDTH} by {HEIGHT} dots"), rows, clear);
}

fn noise(length: usize, random: &mut Random) -> Vec<u8> {
    let mut bytes = vec![0; length];
    bytes.fill_with(|| random.u8());
    bytes
}

/// The original takes pixels by value, and they are made before it is measured.
fn pixels_of(operation: &Operation) -> Vec<RGBA> {
    match operation {
        Operation::PutPixels { pixels, .. } => canvas::pixels_of(pixels),
        _ => Vec::new(),
    }
}

fn apply(canvas: &mut Canvas, operation: &Operation, pixels: Vec<RGBA>) -> Option<canvas::Answer> {
    match *operation {
        Operation::PutPixels {
            area: Area { x, y, w, h },
            multiply,
            ..
        } => canvas
            .0
            .put_pixels(x, y, w, h, pixels, false, multiply)
            .then_some(canvas::Answer::Done),
        _ => canvas.apply(operation),
    }
}

/// Whether both answer the same, and write the same.
fn same(
    operation: &Operation,
    canvas: &mut Canvas,
    rust: Option<canvas::Answer>,
    ours: Option<Answer>,
    [buf, out]: [&[u8]; 2],
) -> bool {
    let next = canvas.record();
    match (operation, rust) {
        (Operation::ConsumeRgb, Some(canvas::Answer::Bytes { w, h, bytes })) => {
            ours == Some(Answer::Rgb(DONE, next, (w, h))) && out.starts_with(&bytes)
        }
        (_, Some(canvas::Answer::Done)) => {
            let written = match operation {
                Operation::Rotate(_) => out,
                _ => buf,
            };
            ours == Some(Answer::Canvas(DONE, next)) && written.starts_with(&canvas.dots())
        }
        _ => false,
    }
}
