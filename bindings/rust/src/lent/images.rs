//! Decoding to a lent buffer.

use super::Decoded;
use crate::colour::{RenderColors, Rgba};
use crate::error::{done, Error};
use crate::raw;

/// Width and height of an image, and how many times each dot is repeated across and down.
#[derive(Clone, Copy, Debug, PartialEq, Eq)]
pub struct Sizes {
    pub width: u32,
    pub height: u32,
    /// A factor 0 counts as 1.
    pub stretch: (u8, u8),
}

impl Sizes {
    /// An image that is not stretched.
    pub const fn new(width: u32, height: u32) -> Self {
        Sizes {
            width,
            height,
            stretch: (1, 1),
        }
    }
}

impl Decoded {
    /// Width and height of the image that is written.
    pub fn done(self) -> Result<(u32, u32), Error> {
        done(self.number, (self.w, self.h))
    }
}

/// Decodes rows of bits, or of alphas.
pub fn image_from_raster_bytes_single_color(
    sizes: Sizes,
    color: Rgba,
    data: &[u8],
    process_as_bits: bool,
    out: &mut [u8],
) -> Decoded {
    // SAFETY: each address and length are those of a slice that is lent for the call.
    unsafe {
        raw::thermal_image_from_raster_bytes_single_color(
            sizes.width,
            sizes.height,
            sizes.stretch.0,
            sizes.stretch.1,
            color,
            data.as_ptr(),
            data.len(),
            process_as_bits,
            out.as_mut_ptr(),
            out.len(),
        )
    }
}

/// Decodes columns of bits.
pub fn image_from_column_bytes_single_color(
    sizes: Sizes,
    color: Rgba,
    data: &[u8],
    out: &mut [u8],
) -> Decoded {
    // SAFETY: each address and length are those of a slice that is lent for the call.
    unsafe {
        raw::thermal_image_from_column_bytes_single_color(
            sizes.width,
            sizes.height,
            sizes.stretch.0,
            sizes.stretch.1,
            color,
            data.as_ptr(),
            data.len(),
            out.as_mut_ptr(),
            out.len(),
        )
    }
}

/// Decodes layers, each a colour's number and rows of bits or of alphas.
pub fn image_from_raster_bytes_multi_color(
    sizes: Sizes,
    num_colors: u8,
    render_colors: RenderColors,
    data: &[u8],
    process_as_bits: bool,
    out: &mut [u8],
) -> Decoded {
    // SAFETY: each address and length are those of a slice that is lent for the call.
    unsafe {
        raw::thermal_image_from_raster_bytes_multi_color(
            sizes.width,
            sizes.height,
            sizes.stretch.0,
            sizes.stretch.1,
            num_colors,
            render_colors,
            data.as_ptr(),
            data.len(),
            process_as_bits,
            out.as_mut_ptr(),
            out.len(),
        )
    }
}
