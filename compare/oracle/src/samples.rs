//! Data on which a wrong decoder shows.

use crate::decoders::{Input, Kind};
use crate::random::Random;

/// Numbers of all four colours, by each of their names, and two of the others.
const COLOR_NUMBERS: [u8; 9] = [0, 1, 49, 2, 50, 3, 51, 4, 255];

/// Gives an input random data of a length. Spare bits are set as often as the others.
pub fn fill(input: &mut Input, length: usize, random: &mut Random) {
    let mut data = Vec::with_capacity(length + 8);
    while data.len() < length {
        data.extend(random.u64().to_le_bytes());
    }
    data.truncate(length);
    if !input.kind.takes_bits() {
        // A random byte is hardly ever one of the two alphas that have rules of their own.
        for alpha in &mut data {
            match *alpha % 8 {
                0 => *alpha = 0,
                1 => *alpha = 255,
                _ => {}
            }
        }
    }
    if let Some(layer) = layer_length(input) {
        for number in data.iter_mut().step_by(layer) {
            if random.below(8) != 0 {
                *number = random.one_of(&COLOR_NUMBERS);
            }
        }
    }
    input.data = data;
}

/// Lengths that are right for one format or another, the input's own first. For bits in layers
/// that is the length which the original's first test accepts, also where none is right.
pub fn near_lengths(input: &Input) -> [usize; 13] {
    let (w, h) = (input.width as usize, input.height as usize);
    let n = usize::from(input.num_colors);
    let (bits, alphas, column) = (w.div_ceil(8) * h, w * h, w * h.div_ceil(8));
    let layer = layer_length(input).unwrap_or(1 + alphas);
    let own = match input.kind {
        Kind::RasterBits => bits,
        Kind::RasterAlphas => alphas,
        Kind::Column => column,
        Kind::LayerBits | Kind::LayerAlphas => n * layer,
    };
    [
        own,
        bits,
        w / 8 * h,
        alphas,
        column,
        w * (h / 8),
        n * (1 + bits),
        n * (1 + w / 8 * h),
        n * (1 + alphas),
        n * (layer - 1),
        n.saturating_sub(1) * layer,
        (n + 1) * layer,
        layer,
    ]
}

/// The bytes from one colour byte to the next.
fn layer_length(input: &Input) -> Option<usize> {
    let (w, h) = (input.width as usize, input.height as usize);
    match input.kind {
        Kind::LayerBits => Some(1 + w / 8 * h),
        Kind::LayerAlphas => Some(1 + w * h),
        _ => None,
    }
}
