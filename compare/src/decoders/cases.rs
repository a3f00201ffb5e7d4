//! What the decoders are asked.

use super::MOST_DOTS;
use oracle::decoders::{Input, Kind};
use oracle::random::Random;
use oracle::rules;
use oracle::samples::{fill, near_lengths};

#[derive(Clone)]
pub struct Case {
    pub input: Input,
    /// The length of the output buffer.
    pub lent: usize,
    /// Moves the buffer's start, so that it lies at every alignment.
    pub shift: usize,
}

/// Sizes about those at which a row or a column takes another byte.
const EDGES: [u32; 23] = [
    0, 1, 7, 8, 9, 15, 16, 17, 23, 24, 25, 31, 32, 33, 39, 40, 41, 47, 48, 49, 63, 64, 65,
];

/// Sizes that are, or are stretched to be, about the largest.
const LONG: [u32; 17] = [
    64, 65, 4095, 4096, 4097, 5460, 5461, 5462, 8191, 8192, 8193, 10_000, 16_376, 16_382, 16_383,
    16_384, 16_385,
];

/// Sizes that are refused, some of which wrap to small ones when they are stretched or multiplied.
const TOO_LARGE: [u32; 18] = [
    16_385,
    16_386,
    16_392,
    32_768,
    65_535,
    65_536,
    65_537,
    8_388_608,
    1 << 24,
    0x4000_0000,
    0x5555_5555,
    0x5555_5556,
    0x7fff_ffff,
    0x8000_0000,
    0x8000_0001,
    0xffff_fff8,
    0xffff_fff9,
    0xffff_ffff,
];

/// Sizes and stretches of large images that are decoded, some with spare bits. All have more than
/// `MOST_DOTS`.
const LARGE: [((u32, u32), (u8, u8)); 10] = [
    ((1_024, 1_024), (1, 1)),
    ((1_021, 1_031), (0, 0)),
    ((16_384, 64), (1, 1)),
    ((64, 16_384), (1, 1)),
    ((576, 4_000), (1, 1)),
    ((192, 1_334), (3, 3)),
    ((16_384, 1), (1, 64)),
    ((8, 16_384), (8, 1)),
    ((8_191, 33), (2, 2)),
    ((13, 65), (8, 252)),
];

/// The dots of the largest of them.
pub const LARGEST_DOTS: usize = 3 * 192 * 3 * 1_334;

/// The cases of the quick setting.
pub fn of(kind: Kind, random: &mut Random, mut each: impl FnMut(Case)) {
    for width in 0..=33 {
        for height in 0..=33 {
            for stretch in 0..25 {
                let stretch = (stretch / 5, stretch % 5);
                let input = input(kind, (width, height), stretch, random);
                each(right_data(input, random));
            }
        }
    }
    for _ in 0..165_000 {
        each(small(kind, random));
    }
    for i in 0..2_000 {
        each(stretched(kind, i % 2 == 0, random));
    }
    for _ in 0..1_000 {
        each(any_data(thin(kind, random), random));
    }
    for stretch in 0..25 {
        each(damaged(kind, (stretch / 5, stretch % 5), random));
    }
    for _ in 0..4_000 {
        each(too_large(kind, random));
    }
    for large in LARGE {
        each(right_large(kind, large, random));
    }
}

/// Any case, as often as its like is among those of the quick setting.
pub fn any(kind: Kind, random: &mut Random) -> Case {
    match random.below(172_035) {
        0..165_000 => small(kind, random),
        165_000..167_000 => {
            let tiny = random.below(2) == 0;
            stretched(kind, tiny, random)
        }
        167_000..168_000 => any_data(thin(kind, random), random),
        168_000..168_025 => damaged(kind, any_stretch(random), random),
        168_025..172_025 => too_large(kind, random),
        _ => right_large(kind, random.one_of(&LARGE), random),
    }
}

fn small(kind: Kind, random: &mut Random) -> Case {
    let sizes = (small_size(random), small_size(random));
    let stretch = (random.below(5) as u8, random.below(5) as u8);
    any_data(input(kind, sizes, stretch, random), random)
}

fn stretched(kind: Kind, tiny: bool, random: &mut Random) -> Case {
    let size = if tiny { tiny_size } else { small_size };
    let sizes = (size(random), size(random));
    let stretch = any_stretch(random);
    any_data(input(kind, sizes, stretch, random), random)
}

/// A damaged header: it announces 2^32 dots, of which there are none.
fn damaged(kind: Kind, stretch: (u8, u8), random: &mut Random) -> Case {
    let damaged = input(kind, (512, 8_388_608), stretch, random);
    case(damaged, 4 * random.below(100), random)
}

fn right_large(
    kind: Kind,
    ((width, height), stretch): ((u32, u32), (u8, u8)),
    random: &mut Random,
) -> Case {
    let width = match kind {
        Kind::LayerBits => width & !7,
        _ => width,
    };
    let input = input(kind, (width, height), stretch, random);
    right_data(input, random)
}

/// An input without data.
fn input(kind: Kind, sizes: (u32, u32), stretch: (u8, u8), random: &mut Random) -> Input {
    // Bits in layers make an image only of rows of whole bytes.
    let whole_bytes = kind == Kind::LayerBits && random.below(4) != 0;
    Input {
        kind,
        width: if whole_bytes { sizes.0 & !7 } else { sizes.0 },
        height: sizes.1,
        stretch,
        num_colors: match random.below(16) {
            0 => random.u8(),
            _ => random.below(6) as u8,
        },
        colors: [0; 4].map(|_| random.u32()),
        data: Vec::new(),
    }
}

fn case(input: Input, lent: usize, random: &mut Random) -> Case {
    let shift = random.below(16);
    Case { input, lent, shift }
}

fn small_size(random: &mut Random) -> u32 {
    match random.below(8) {
        0..=2 => random.one_of(&EDGES),
        _ => random.below(18) as u32,
    }
}

fn tiny_size(random: &mut Random) -> u32 {
    random.below(5) as u32
}

fn any_stretch(random: &mut Random) -> (u8, u8) {
    match random.below(4) {
        0 => (random.u8(), random.below(5) as u8),
        1 => (random.below(5) as u8, random.u8()),
        2 => (random.u8(), random.u8()),
        _ => (random.one_of(&[127, 128, 254, 255]), 255),
    }
}

/// A long side and a short one.
fn thin(kind: Kind, random: &mut Random) -> Input {
    let long = random.one_of(&LONG);
    let factor = match long {
        64 | 65 => random.one_of(&[251, 252, 253, 255]),
        _ => random.below(5) as u8,
    };
    let (short, other) = (random.below(10) as u32, random.below(3) as u8);
    if random.below(2) == 0 {
        input(kind, (long, short), (factor, other), random)
    } else {
        input(kind, (short, long), (other, factor), random)
    }
}

/// Gives an input at least one layer, right data and an output buffer with room.
fn right_data(mut input: Input, random: &mut Random) -> Case {
    input.num_colors = 1 + random.below(4) as u8;
    let [right, ..] = near_lengths(&input);
    fill(&mut input, right, random);
    let lent = dots_length(&input) + random.one_of(&[0, 0, 0, 1, 4, 37]);
    case(input, lent, random)
}

/// Gives an input data and an output buffer, right or wrong independently.
fn any_data(mut input: Input, random: &mut Random) -> Case {
    // Many layers are asked of small images, so that the dots of all layers stay few.
    let (w, h) = rules::stretched(&input);
    if w * h * u64::from(input.num_colors) > 16_384 {
        input.num_colors %= 4;
    }
    let near = near_lengths(&input);
    let right = near[0];
    let length = match random.below(16) {
        0..=8 => right,
        9 => right.saturating_sub(1),
        10 => right + 1,
        11 => random.below(right + 1),
        12 => right + random.below(70),
        13 => 0,
        _ => random.one_of(&near),
    };
    fill(&mut input, length.min(1 << 18), random);

    let need = if w * h <= MOST_DOTS {
        dots_length(&input)
    } else {
        // Never a buffer with room, which only `LARGE` have.
        random.below(4096)
    };
    let lent = match random.below(16) {
        0..=6 => need,
        7 => need.saturating_sub(1),
        8 => need.saturating_sub(1 + random.below(8)),
        9 => random.below(need + 1),
        10 => random.one_of(&[0, need / 2, need / 4]),
        11 => need + 1,
        12 => need + random.below(9),
        _ => need + random.below(300),
    };
    case(input, lent, random)
}

fn too_large(kind: Kind, random: &mut Random) -> Case {
    let large = random.one_of(&TOO_LARGE);
    let other = match random.below(4) {
        0 => random.one_of(&TOO_LARGE),
        1 => random.one_of(&LONG),
        _ => small_size(random),
    };
    let sizes = if random.below(2) == 0 {
        (large, other)
    } else {
        (other, large)
    };
    let stretch = match random.below(4) {
        0 => any_stretch(random),
        _ => (random.below(5) as u8, random.below(5) as u8),
    };
    let mut input = input(kind, sizes, stretch, random);
    let (w, h) = (input.width, input.height);
    // Lengths that are right where the sizes wrap.
    let wrapped = [
        w.wrapping_mul(h),
        w.wrapping_add(7).wrapping_div(8).wrapping_mul(h),
        w.wrapping_mul(h.wrapping_add(7) / 8),
        u32::from(input.num_colors),
        random.below(70) as u32,
        0,
    ];
    let length = random.one_of(&wrapped);
    let length = if length <= 4096 { length } else { 0 };
    fill(&mut input, length as usize, random);
    let (w, h) = rules::stretched(&input);
    let lent = (4 * (w as u32).wrapping_mul(h as u32) as usize).min(random.below(4096));
    case(input, lent, random)
}

/// The bytes of the stretched dots.
pub fn dots_length(input: &Input) -> usize {
    let (w, h) = rules::stretched(input);
    4 * (w * h) as usize
}
