//! Decoding of printer images.

use super::{RenderColors, Rgba};

/// A decoder's number, and the sizes of the image, stretched.
#[repr(C)]
#[derive(Clone, Copy, Debug, PartialEq, Eq)]
pub struct Decoded {
    pub number: u8,
    pub w: u32,
    pub h: u32,
}

unsafe extern "C" {
    pub fn thermal_image_from_raster_bytes_single_color(
        width: u32,
        height: u32,
        stretch_x: u8,
        stretch_y: u8,
        color: Rgba,
        data: *const u8,
        data_length: usize,
        process_as_bits: bool,
        out: *mut u8,
        out_length: usize,
    ) -> Decoded;
    pub fn thermal_image_from_column_bytes_single_color(
        width: u32,
        height: u32,
        stretch_x: u8,
        stretch_y: u8,
        color: Rgba,
        data: *const u8,
        data_length: usize,
        out: *mut u8,
        out_length: usize,
    ) -> Decoded;
    pub fn thermal_image_from_raster_bytes_multi_color(
        width: u32,
        height: u32,
        stretch_x: u8,
        stretch_y: u8,
        num_colors: u8,
        render_colors: RenderColors,
        data: *const u8,
        data_length: usize,
        process_as_bits: bool,
        out: *mut u8,
        out_length: usize,
    ) -> Decoded;
}
