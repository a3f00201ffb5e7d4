//! Colours: blending, multiplying, alphas and colour numbers.

mod call;
mod run;

use crate::report::{Report, Verdict};
use call::{Call, Function};
use oracle::random::Random;
use run::{Lent, Run, Work};

pub use call::read as read_call;
pub use run::read as read_run;

pub fn compare(report: &mut Report) {
    let mut random = Random::new(1);
    with_alpha(report, &mut random);
    color_for_number(report, &mut random);
    blend_foreground_with_alpha(report, &mut random);
    for work in Work::ALL {
        every_triple(report, work);
        every_length(report, work, &mut random);
    }
}

fn with_alpha(report: &mut Report, random: &mut Random) {
    let calls = (0..4096).flat_map(|_| {
        let color = random.u32();
        (0..=255).map(move |alpha| Call::new(Function::WithAlpha, [color, 0], alpha))
    });
    call::compare(report, "with_alpha", calls);
}

fn color_for_number(report: &mut Report, random: &mut Random) {
    let calls = (0..64).flat_map(|first| {
        // The red bytes keep the four colours apart.
        let colors = [0, 1, 2, 3].map(|i| random.u32() & !0xff | (first + 64 * i));
        (0..=255).map(move |byte| Call {
            function: Function::ColorForNumber,
            colors,
            byte,
        })
    });
    call::compare(report, "color_for_number", calls);
}

fn blend_foreground_with_alpha(report: &mut Report, random: &mut Random) {
    let calls = (0..=255).flat_map(|alpha| (0..8192).map(move |_| alpha));
    let calls = calls.map(|alpha| {
        let dot = random.u32();
        let [r, g, b, own] = random.u32().to_le_bytes();
        let own = if own == alpha { !own } else { own };
        let color = u32::from_le_bytes([r, g, b, own]);
        Call::new(Function::BlendWithAlpha, [dot, color], alpha)
    });
    call::compare(report, "blend_foreground_with_alpha", calls);
}

/// Every old value s, colour value c and alpha a, in each of r, g and b, dot by dot and over
/// buffers of two lengths, since a run may work differently when it is long.
fn every_triple(report: &mut Report, work: Work) {
    let by_dot = report.row(format!("{}, every triple", work.of_a_dot().name()));
    let short = report.row(format!("{}, every triple, 256 dots", work.name()));
    let long = report.row(format!("{}, every triple, 1024 dots", work.name()));
    for a in 0..=255u8 {
        for c in 0..=255u8 {
            // For a fixed alpha each channel's value is another permutation of c, and of s below;
            // so is the dot's own alpha.
            let color = u32::from_le_bytes([c, c.wrapping_mul(91).wrapping_add(7), c ^ 0x2d, a]);
            let dots: [u32; 256] = std::array::from_fn(|s| {
                let s = s as u8;
                let g = s.wrapping_mul(167).wrapping_add(a);
                let own = s.wrapping_add(c).wrapping_add(a);
                u32::from_le_bytes([s, g, !s, own])
            });
            let calls = dots.map(|dot| Call::new(work.of_a_dot(), [dot, color], 0));
            let rust = calls.map(|call| call.rust());
            for (call, &rust) in calls.iter().zip(&rust) {
                let verdict = Verdict::done(call.difference_from(rust));
                report.count(by_dot, &verdict, || *call);
            }
            let lent = Lent {
                start: 16 + usize::from(a % 4),
                tail: usize::from(c % 4),
            };
            run::compare(report, short, Run::new(work, lent, color, &dots), &rust);
            let (dots, rust) = (dots.repeat(4), rust.repeat(4));
            run::compare(report, long, Run::new(work, lent, color, &dots), &rust);
        }
    }
}

/// Buffers of every length about the sizes that a run may work in, and of some that are long.
fn every_length(report: &mut Report, work: Work, random: &mut Random) {
    let row = report.row(format!("{}, 0 to 65537 dots", work.name()));
    for alpha in [0, 1, 50, 127, 128, 200, 254, 255] {
        for length in (0..=350).chain([1023, 4099, 65537]) {
            let dots: Vec<u32> = (0..length).map(|_| random.u32()).collect();
            for tail in 0..4 {
                let [r, g, b, _] = random.u32().to_le_bytes();
                let color = u32::from_le_bytes([r, g, b, alpha]);
                let start = 16 + random.below(16);
                let run = Run::new(work, Lent { start, tail }, color, &dots);
                let rust = run.rust();
                run::compare(report, row, run, &rust);
            }
        }
    }
}
