//! Answers of the decoders. Sizes are small, so that a line is short and a buffer is at most 4,096
//! bytes.

pub mod refusals;

use crate::checksum;
use oracle::colour::hex;
use oracle::decoders::{decode, Answer, Input, Kind};
use oracle::random::Random;
use oracle::rules;
use oracle::samples::{fill, near_lengths};

/// The colours of layers, as in the list of colours.
const COLORS: [u32; 4] = [0x01020304, 0x11121314, 0x21222324, 0x31323334];

/// What a buffer holds before the call.
const BEFORE: u8 = 0x5a;

/// Lines of each kind.
const LINES: usize = 300;

/// Stretched sizes of samples.
const LARGEST: u64 = 24;

pub fn write() {
    let mut random = Random::new(3);
    for kind in Kind::ALL {
        let mut inputs = examples(kind, &mut random);
        while inputs.len() < LINES {
            let input = sample(kind, &mut random);
            // A column that is too short stops the original; it is in the other list.
            if decode(&input).is_some() {
                inputs.push(input);
            }
        }
        for input in inputs {
            let answer = decode(&input).expect("the original answers for each example");
            let lent = match &answer {
                Answer::Image { dots, .. } => dots.len() + random.one_of(&[0, 0, 0, 1, 4, 29]),
                Answer::Refused(_) => random.one_of(&[0, 7, 64, 400]),
            };
            line(&input, lent, &answer);
        }
    }
}

/// The scope's examples, and every pair of edges.
fn examples(kind: Kind, random: &mut Random) -> Vec<Input> {
    let mut inputs = Vec::new();
    let mut add = |width, height, stretch, num_colors, data: &[u8]| {
        inputs.push(Input {
            width,
            height,
            stretch,
            num_colors,
            data: data.to_vec(),
            ..empty(kind, random)
        });
    };
    match kind {
        Kind::RasterBits => {
            add(3, 2, (1, 1), 0, &[0xa0, 0x40]);
            add(3, 2, (1, 1), 0, &[0xa0]);
            add(3, 2, (2, 1), 0, &[0xbf, 0x5f]);
            add(0, 5, (1, 1), 0, &[]);
            add(0, 5, (1, 1), 0, &[0xa0]);
            add(16_384, 0, (0, 255), 0, &[]);
            add(0, 64, (255, 255), 0, &[]);
        }
        Kind::RasterAlphas => {
            add(1, 1, (1, 1), 0, &[7]);
            add(0, 16_384, (255, 1), 0, &[]);
        }
        Kind::Column => {
            add(2, 3, (1, 1), 0, &[0xa0, 0x40]);
            add(0, 5, (2, 2), 0, &[]);
            add(8_192, 0, (2, 0), 0, &[]);
        }
        Kind::LayerBits => {
            add(12, 1, (1, 1), 1, &[1, 0xa0]);
            add(12, 1, (1, 1), 1, &[1, 0xa0, 0xf0]);
            add(9, 1, (1, 1), 1, &[1, 0xff, 0x80]);
            add(7, 2, (1, 1), 2, &[1, 0xff, 0x80, 2, 0xaa, 0x55]);
            add(1, 1, (2, 2), 3, &[1, 0x80, 2, 0x80, 3, 0x80]);
            add(12, 0, (1, 1), 3, &[1, 2, 3]);
            add(0, 5, (1, 1), 2, &[1, 2]);
            add(4, 1, (1, 1), 1, &[1]);
            add(8, 1, (1, 1), 0, &[]);
            add(8, 1, (1, 1), 0, &[1]);
            add(8, 1, (1, 1), 0, &[1, 0xa0]);
            add(0, 0, (1, 1), 0, &[0]);
            add(16_384, 0, (1, 1), 0, &[]);
            add(16_384, 0, (1, 1), 255, &[3; 255]);
        }
        Kind::LayerAlphas => {
            add(1, 1, (1, 1), 2, &[1, 0, 2, 128]);
            add(1, 1, (1, 1), 2, &[0, 0, 3, 255]);
            add(1, 1, (1, 1), 3, &[1, 40, 2, 255, 3, 1]);
            add(0, 5, (1, 1), 2, &[1, 2]);
            add(1, 1, (1, 1), 0, &[]);
            add(1, 1, (1, 1), 0, &[1]);
            add(1, 1, (1, 1), 0, &[1, 255]);
        }
    }
    for width in [0, 1, 7, 8, 9, 12] {
        for height in [0, 1, 7, 8, 9] {
            let mut input = Input {
                width,
                height,
                stretch: (random.below(3) as u8, random.below(3) as u8),
                ..empty(kind, random)
            };
            let [right, ..] = near_lengths(&input);
            fill(&mut input, right, random);
            inputs.push(input);
        }
    }
    inputs
}

/// An input of no size.
fn empty(kind: Kind, random: &mut Random) -> Input {
    let (num_colors, colors) = if kind.has_layers() {
        (1 + random.below(3) as u8, COLORS.map(u32::swap_bytes))
    } else {
        (0, [random.u32(); 4])
    };
    Input {
        kind,
        width: 0,
        height: 0,
        stretch: (0, 0),
        num_colors,
        colors,
        data: Vec::new(),
    }
}

/// A small input, most often with data of the right length.
fn sample(kind: Kind, random: &mut Random) -> Input {
    let mut input = empty(kind, random);
    // Layers of bits make an image only of rows of whole bytes, and layers of alphas make lines
    // long.
    (input.width, input.height) = match kind {
        Kind::LayerBits if random.below(8) != 0 => (random.one_of(&[0, 8, 8, 8, 8]), small(random)),
        Kind::LayerAlphas => (random.below(7) as u32, random.below(7) as u32),
        _ => (small(random), small(random)),
    };
    if kind.has_layers() && random.below(4) == 0 {
        input.num_colors = random.below(6) as u8;
    }
    loop {
        input.stretch = (random.below(5) as u8, random.below(5) as u8);
        let (w, h) = rules::stretched(&input);
        if w <= LARGEST && h <= LARGEST {
            break;
        }
    }
    let near = near_lengths(&input);
    let right = near[0];
    let length = match random.below(24) {
        0 => right.saturating_sub(1),
        1 => right + 1,
        2 => random.below(right + 1),
        3..=5 => random.one_of(&near),
        _ => right,
    };
    fill(&mut input, length, random);
    input
}

fn small(random: &mut Random) -> u32 {
    random.below(13) as u32
}

/// Writes a line. `rules::due` has to agree with the answer.
fn line(input: &Input, lent: usize, answer: &Answer) {
    let (number, w, h, dots) = match answer {
        Answer::Image { w, h, dots } => (0, *w, *h, &dots[..]),
        Answer::Refused(number) => (*number, 0, 0, &[][..]),
    };
    assert_eq!(rules::due(input, lent), number, "{input:?}");
    assert!(lent <= 4096, "{input:?}");
    let mut after = vec![BEFORE; lent];
    after[..dots.len()].copy_from_slice(dots);

    let kind = match input.kind {
        Kind::RasterBits => 'r',
        Kind::RasterAlphas => 's',
        Kind::Column => 'c',
        Kind::LayerBits => 'm',
        Kind::LayerAlphas => 'l',
    };
    let color = if input.kind.has_layers() {
        0
    } else {
        input.colors[0]
    };
    let data: String = input.data.iter().map(|b| format!("{b:02x}")).collect();
    println!(
        "{kind} {:08x} {:08x} {:02x} {:02x} {:02x} {} {lent:06x} {number:02x} {w:08x} {h:08x} {:08x} {:04x}{data}",
        input.width,
        input.height,
        input.stretch.0,
        input.stretch.1,
        input.num_colors,
        hex(color),
        checksum(&after),
        input.data.len(),
    );
}
