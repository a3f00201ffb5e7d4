//! The number that the scope asks of a decoder, worked out from its text. The original says
//! nothing of lent buffers, and it stops or wraps at sizes that the scope refuses.

pub mod canvas;
pub mod job;

use crate::decoders::{Input, Kind};

pub const DONE: u8 = 0;
pub const NO_ROOM: u8 = 1;
pub const TOO_LARGE: u8 = 2;
pub const WRONG_LENGTH: u8 = 3;
pub const NO_LAYERS: u8 = 4;
pub const OFF_PAPER: u8 = 5;
pub const TOO_MANY: u8 = 6;
pub const SHORT: u8 = 7;
pub const TOO_TALL: u8 = 8;
pub const BAD_CANVAS: u8 = 9;
pub const EMPTY_AREA: u8 = 10;
/// Never due: all layers of one call have the same size.
pub const LAYER_SIZE: u8 = 16;

pub const LARGEST: u64 = 16_384;

/// The number due for an input and an output buffer of `lent` bytes.
pub fn due(input: &Input, lent: usize) -> u8 {
    let (w, h) = stretched(input);
    let given = [u64::from(input.width), u64::from(input.height)];
    if given.into_iter().chain([w, h]).any(|size| size > LARGEST) {
        return TOO_LARGE;
    }
    if data_length(input) != Some(input.data.len() as u64) {
        return WRONG_LENGTH;
    }
    if input.kind.has_layers() && input.num_colors == 0 {
        return NO_LAYERS;
    }
    if (lent as u64) < 4 * w * h {
        return NO_ROOM;
    }
    DONE
}

/// Width and height of the stretched image; a factor 0 counts as 1.
pub fn stretched(input: &Input) -> (u64, u64) {
    let (x, y) = input.stretch;
    (
        u64::from(input.width) * u64::from(x.max(1)),
        u64::from(input.height) * u64::from(y.max(1)),
    )
}

/// The one length that data of sizes up to `LARGEST` may have, or nothing where each is wrong.
pub fn data_length(input: &Input) -> Option<u64> {
    let (w, h) = (u64::from(input.width), u64::from(input.height));
    let n = u64::from(input.num_colors);
    match input.kind {
        Kind::RasterBits => Some(w.div_ceil(8) * h),
        Kind::RasterAlphas => Some(w * h),
        Kind::Column => Some(w * h.div_ceil(8)),
        Kind::LayerBits if w % 8 != 0 && h > 0 && n > 0 => None,
        Kind::LayerBits => Some(n * (1 + w / 8 * h)),
        Kind::LayerAlphas => Some(n * (1 + w * h)),
    }
}

#[cfg(test)]
mod tests {
    use super::{due, Input, Kind};

    fn number(kind: Kind, sizes: (u32, u32), stretch: (u8, u8), n: u8, data: usize) -> u8 {
        let input = Input {
            kind,
            width: sizes.0,
            height: sizes.1,
            stretch,
            num_colors: n,
            colors: [0; 4],
            data: vec![0; data],
        };
        due(&input, 24)
    }

    #[test]
    fn the_scopes_examples() {
        assert_eq!(number(Kind::RasterBits, (3, 2), (1, 1), 0, 2), 0);
        assert_eq!(number(Kind::RasterBits, (3, 2), (1, 1), 0, 1), 3);
        assert_eq!(number(Kind::RasterBits, (0, 5), (1, 1), 0, 0), 0);
        assert_eq!(number(Kind::RasterBits, (0, 5), (1, 1), 0, 1), 3);
        assert_eq!(number(Kind::Column, (2, 3), (1, 1), 0, 2), 0);
        assert_eq!(number(Kind::LayerBits, (12, 1), (1, 1), 1, 2), 3);
        assert_eq!(number(Kind::LayerBits, (12, 0), (1, 1), 3, 3), 0);
        assert_eq!(number(Kind::LayerBits, (4, 1), (1, 1), 1, 1), 3);
    }

    #[test]
    fn each_number_comes_before_the_later_ones() {
        assert_eq!(number(Kind::RasterBits, (4, 2), (1, 1), 0, 2), 1);
        assert_eq!(number(Kind::RasterBits, (4, 2), (1, 1), 0, 3), 3);
        assert_eq!(number(Kind::RasterBits, (0, 16_384), (2, 2), 0, 1), 2);
        assert_eq!(number(Kind::RasterBits, (0, 16_384), (2, 0), 0, 0), 0);
        assert_eq!(number(Kind::LayerBits, (8, 9), (1, 1), 0, 0), 4);
        assert_eq!(number(Kind::LayerBits, (8, 9), (1, 1), 0, 1), 3);
        assert_eq!(number(Kind::Column, (512, 8_388_608), (1, 1), 0, 0), 2);
        assert_eq!(number(Kind::Column, (1 << 31, 1), (2, 1), 0, 0), 2);
    }
}
