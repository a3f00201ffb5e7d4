//! The canvas.

use super::Rgba;

/// A canvas but for its dots, which are the first 4·width·height bytes of a buffer.
#[repr(C)]
#[derive(Clone, Copy, Debug, PartialEq, Eq)]
pub struct ThermalImage {
    pub width: u32,
    pub height: u32,
    pub auto_grow: bool,
    pub paper_color: Rgba,
}

/// An operation's number, and the next canvas.
#[repr(C)]
#[derive(Clone, Copy, Debug, PartialEq, Eq)]
pub struct Answer {
    pub number: u8,
    pub image: ThermalImage,
}

/// The number of a copy, and the sizes of what is written out.
#[repr(C)]
#[derive(Clone, Copy, Debug, PartialEq, Eq)]
pub struct Copied {
    pub number: u8,
    pub width: u32,
    pub height: u32,
}

/// The number of an RGB output, the next canvas, and the sizes of what is written out.
#[repr(C)]
#[derive(Clone, Copy, Debug, PartialEq, Eq)]
pub struct Rgb {
    pub number: u8,
    pub image: ThermalImage,
    pub width: u32,
    pub height: u32,
}

unsafe extern "C" {
    pub safe fn thermal_new(width: u32) -> Answer;
    pub safe fn thermal_get_height(image: ThermalImage) -> u32;
    pub fn thermal_expand_to_height(
        image: ThermalImage,
        height: u32,
        buf: *mut u8,
        length: usize,
    ) -> Answer;
    pub fn thermal_add_top_margin(
        image: ThermalImage,
        height: u32,
        buf: *mut u8,
        length: usize,
    ) -> Answer;
    pub fn thermal_expand_to_width(
        image: ThermalImage,
        new_width: u32,
        buf: *mut u8,
        length: usize,
    ) -> Answer;
    pub fn thermal_set_width(
        image: ThermalImage,
        width: u32,
        buf: *const u8,
        length: usize,
    ) -> Answer;
    pub fn thermal_empty(image: ThermalImage, buf: *const u8, length: usize) -> Answer;
    pub fn thermal_reset(image: ThermalImage, buf: *const u8, length: usize) -> Answer;
    pub fn thermal_copy(
        image: ThermalImage,
        buf: *const u8,
        length: usize,
        out: *mut u8,
        out_length: usize,
    ) -> Copied;
    pub fn thermal_consume_rgb_u8(
        image: ThermalImage,
        buf: *const u8,
        length: usize,
        out: *mut u8,
        out_length: usize,
    ) -> Rgb;
    pub fn thermal_rotate_90(
        image: ThermalImage,
        buf: *const u8,
        length: usize,
        out: *mut u8,
        out_length: usize,
    ) -> Answer;
    pub fn thermal_rotate_180(
        image: ThermalImage,
        buf: *const u8,
        length: usize,
        out: *mut u8,
        out_length: usize,
    ) -> Answer;
    pub fn thermal_rotate_270(
        image: ThermalImage,
        buf: *const u8,
        length: usize,
        out: *mut u8,
        out_length: usize,
    ) -> Answer;
}
