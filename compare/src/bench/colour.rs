//! Blending and multiplying one colour onto many dots.

use super::{print, time, Row, ROUNDS};
use crate::library;
use oracle::colour::{number, rgba};
use oracle::random::Random;
use oracle::thermal_parser::graphics::RGBA;
use std::hint::black_box;

const DOTS: usize = 2000 * 2000;

struct Work {
    name: &'static str,
    alpha: u8,
    rust: fn(&mut [RGBA], &RGBA),
    ours: fn(&mut [u8], u32),
}

const WORKS: [Work; 4] = [
    Work {
        name: "blend, translucent (alpha 128)",
        alpha: 128,
        rust: blend,
        ours: library::blend_dots,
    },
    Work {
        name: "blend, opaque (alpha 255)",
        alpha: 255,
        rust: blend,
        ours: library::blend_dots,
    },
    Work {
        name: "multiply, opaque (alpha 255)",
        alpha: 255,
        rust: multiply,
        ours: library::multiply_dots,
    },
    Work {
        name: "multiply, translucent (alpha 128)",
        alpha: 128,
        rust: multiply,
        ours: library::multiply_dots,
    },
];

fn blend(dots: &mut [RGBA], color: &RGBA) {
    for dot in dots {
        dot.blend_foreground(color);
    }
}

fn multiply(dots: &mut [RGBA], color: &RGBA) {
    for dot in dots {
        dot.multiply_foreground(color);
    }
}

pub fn measure() {
    let mut random = Random::new(1);
    let rust_before: Vec<RGBA> = (0..DOTS).map(|_| rgba(random.u32())).collect();
    let ours_before = bytes_of(&rust_before);
    let mut rust = rust_before.clone();
    let mut ours = ours_before.clone();
    let mut rows = WORKS.map(|work| Row::new(work.name));
    let mut clear = Vec::new();

    for round in 0..ROUNDS {
        for (work, row) in WORKS.iter().zip(&mut rows) {
            let color = u32::from_le_bytes([200, 100, 30, work.alpha]);
            rust.copy_from_slice(&rust_before);
            row.rust
                .push(time(|| (work.rust)(&mut rust, black_box(&rgba(color)))));
            ours.copy_from_slice(&ours_before);
            row.ours
                .push(time(|| (work.ours)(&mut ours, black_box(color))));
            if round == 0 {
                assert!(bytes_of(&rust) == ours, "{}: the answers differ", work.name);
            }
        }
        ours.copy_from_slice(&ours_before);
        clear.push(time(|| black_box(&mut ours).fill(0)));
    }
    print(&format!("{DOTS} dots"), rows, clear);
}

fn bytes_of(dots: &[RGBA]) -> Vec<u8> {
    dots.iter()
        .flat_map(|&dot| number(dot).to_le_bytes())
        .collect()
}
