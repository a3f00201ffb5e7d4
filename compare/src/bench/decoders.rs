//! Decoding an image as wide as a receipt and half a metre long. The original makes its vectors
//! anew in each call; this library writes to one buffer.

use super::{print, time, Row, ROUNDS};
use crate::library;
use oracle::decoders::{command, dots, Input, Kind};
use oracle::random::Random;
use oracle::rules;
use oracle::samples::fill;
use oracle::thermal_parser::graphics::GraphicsCommand;
use std::hint::black_box;
use thermal::lent::Decoded;

/// The image as it is, and one that is stretched to about its size.
const WHOLE: (u32, u32, u8) = (576, 4000, 1);
const THIRD: (u32, u32, u8) = (192, 1334, 3);

const LAYERS: u8 = 3;

const WORKS: [(&str, Kind, (u32, u32, u8)); 8] = [
    ("raster bits", Kind::RasterBits, WHOLE),
    ("raster bits, stretched by 3", Kind::RasterBits, THIRD),
    ("column bits", Kind::Column, WHOLE),
    ("column bits, stretched by 3", Kind::Column, THIRD),
    ("three layers of bits", Kind::LayerBits, WHOLE),
    (
        "three layers of bits, stretched by 3",
        Kind::LayerBits,
        THIRD,
    ),
    ("raster alphas", Kind::RasterAlphas, WHOLE),
    ("three layers of alphas", Kind::LayerAlphas, WHOLE),
];

pub fn measure() {
    let mut random = Random::new(1);
    let inputs = WORKS.map(|(_, kind, sizes)| input(kind, sizes, &mut random));
    let length = inputs.iter().map(dots_length).max().unwrap();
    let mut out = vec![0; length];
    let mut rows = WORKS.map(|(name, ..)| Row::new(name));
    let mut clear = Vec::new();

    for round in 0..ROUNDS {
        for (input, row) in inputs.iter().zip(&mut rows) {
            // Neither an answer nor the time to free it counts.
            let mut rust = None;
            row.rust
                .push(time(|| rust = Some(command(black_box(input)))));
            let mut ours = None;
            row.ours.push(time(|| {
                ours = Some(library::decode(black_box(input), &mut out));
            }));
            if round == 0 {
                let Some(GraphicsCommand::Image(image)) = rust else {
                    panic!("{}: the Rust gives no image", row.name);
                };
                let expected = Decoded {
                    number: 0,
                    w: image.w,
                    h: image.h,
                };
                assert!(
                    ours == Some(expected) && out[..dots_length(input)] == dots(&image),
                    "{}: the answers differ",
                    row.name
                );
            }
        }
        clear.push(time(|| black_box(&mut out).fill(0)));
    }
    print(&format!("{} dots", length / 4), rows, clear);
}

fn input(kind: Kind, (width, height, stretch): (u32, u32, u8), random: &mut Random) -> Input {
    let mut input = Input {
        kind,
        width,
        height,
        stretch: (stretch, stretch),
        num_colors: LAYERS,
        colors: [0; 4].map(|_| random.u32()),
        data: Vec::new(),
    };
    let length = rules::data_length(&input).unwrap() as usize;
    fill(&mut input, length, random);
    if kind.has_layers() {
        let layer = length / usize::from(LAYERS);
        for (number, byte) in (1..).zip(input.data.iter_mut().step_by(layer)) {
            *byte = number;
        }
    }
    input
}

fn dots_length(input: &Input) -> usize {
    let (w, h) = rules::stretched(input);
    4 * (w * h) as usize
}
