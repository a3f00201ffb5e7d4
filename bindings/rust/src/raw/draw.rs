//! Drawing on the canvas, and the border of a picture.

use super::{Answer, Rgba, ThermalImage};

unsafe extern "C" {
    pub fn thermal_put_pixels(
        image: ThermalImage,
        x: u32,
        y: u32,
        w: u32,
        h: u32,
        pixels: *const u8,
        pixels_length: usize,
        multiply: bool,
        buf: *mut u8,
        length: usize,
    ) -> Answer;
    pub fn thermal_draw_rect(
        image: ThermalImage,
        x: u32,
        y: u32,
        w: u32,
        h: u32,
        color: Rgba,
        multiply: bool,
        buf: *mut u8,
        length: usize,
    ) -> Answer;
    pub fn thermal_put_rect(
        image: ThermalImage,
        x: u32,
        y: u32,
        w: u32,
        h: u32,
        color: Rgba,
        buf: *mut u8,
        length: usize,
    ) -> Answer;
    pub fn thermal_put_render_img(
        image: ThermalImage,
        x: u32,
        y: u32,
        w: u32,
        h: u32,
        pixels: *const u8,
        pixels_length: usize,
        upside_down: bool,
        buf: *mut u8,
        length: usize,
    ) -> Answer;
    pub fn thermal_flip_pixels(
        image: ThermalImage,
        x: u32,
        y: u32,
        w: u32,
        h: u32,
        buf: *mut u8,
        length: usize,
    ) -> Answer;
    pub fn thermal_draw_border(w: u32, h: u32, color: Rgba, buf: *mut u8, length: usize) -> u8;
}
