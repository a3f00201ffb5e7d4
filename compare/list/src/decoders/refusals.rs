//! Refusals that the original does not know: buffers without room, sizes that are too large, and
//! columns whose data is too short, at which it stops. They follow the scope's rules alone.

use super::{empty, line, sample};
use oracle::decoders::{decode, Answer, Input, Kind};
use oracle::random::Random;
use oracle::rules::{self, DONE};
use oracle::samples::fill;

pub fn write() {
    let mut random = Random::new(4);
    for kind in Kind::ALL {
        no_room(kind, &mut random);
        too_large(kind, &mut random);
    }
    short_column(&mut random);
}

fn refused(input: &Input, lent: usize) {
    let number = rules::due(input, lent);
    assert_ne!(number, DONE, "{input:?}");
    line(input, lent, &Answer::Refused(number));
}

/// Images for which the buffer is too short.
fn no_room(kind: Kind, random: &mut Random) {
    let mut written = 0;
    while written < 12 {
        let input = sample(kind, random);
        let (w, h) = rules::stretched(&input);
        let need = 4 * (w * h) as usize;
        if need == 0 || rules::due(&input, need) != DONE {
            continue;
        }
        let short = [need - 1, need - 4, need / 2, need / 4, 0];
        refused(&input, short[written % short.len()]);
        written += 1;
    }
}

/// Sizes above the limit, some of which wrap to small ones, with data and buffers that are right
/// or wrong: neither is looked at.
fn too_large(kind: Kind, random: &mut Random) {
    let sizes = [
        ((16_385, 0), (1, 1)),
        ((0, 16_385), (0, 0)),
        ((0, 16_384), (1, 2)),
        ((8_193, 0), (2, 1)),
        ((1, 65), (1, 255)),
        ((5_462, 0), (3, 3)),
        ((65_536, 65_536), (1, 1)),
        ((0x8000_0000, 2), (1, 1)),
        ((0x8000_0000, 1), (2, 1)),
        ((1, 0x5555_5556), (1, 3)),
        ((0xffff_ffff, 0xffff_ffff), (255, 255)),
        ((0xffff_ffff, 1), (1, 1)),
        ((512, 8_388_608), (1, 1)),
    ];
    for ((width, height), stretch) in sizes {
        let mut input = Input {
            width,
            height,
            stretch,
            ..empty(kind, random)
        };
        let layers = usize::from(input.num_colors);
        let length = random.one_of(&[0, layers, layers, 1, 9]);
        // The damaged image has no data.
        if width != 512 {
            fill(&mut input, length, random);
        }
        refused(&input, random.one_of(&[0, 4, 64, 300]));
    }
}

fn short_column(random: &mut Random) {
    let mut written = 0;
    while written < 16 {
        let mut input = sample(Kind::Column, random);
        let right = rules::data_length(&input).unwrap_or_default() as usize;
        if right == 0 {
            continue;
        }
        let short = [right - 1, 0, random.below(right)];
        fill(&mut input, short[written % short.len()], random);
        assert_eq!(decode(&input), None, "{input:?}");
        refused(&input, random.one_of(&[0, 64, 2400]));
        written += 1;
    }
}
