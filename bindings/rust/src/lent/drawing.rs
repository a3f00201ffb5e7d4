//! Drawing on the canvas, and the border of a picture.

use super::{Answer, ThermalImage};
use crate::colour::Rgba;
use crate::raw;

/// An area of a canvas.
#[derive(Clone, Copy, Debug, PartialEq, Eq)]
pub struct Rectangle {
    pub x: u32,
    pub y: u32,
    pub w: u32,
    pub h: u32,
}

// SAFETY, in all of these: each address and length are those of a slice that is lent for the call.
impl ThermalImage {
    /// Blends or multiplies pixels, four bytes each, onto an area of the canvas.
    pub fn put_pixels(
        self,
        area: Rectangle,
        pixels: &[u8],
        multiply: bool,
        buf: &mut [u8],
    ) -> Answer {
        let Rectangle { x, y, w, h } = area;
        let (p, m) = (pixels.as_ptr(), pixels.len());
        let (b, n) = (buf.as_mut_ptr(), buf.len());
        unsafe { raw::thermal_put_pixels(self, x, y, w, h, p, m, multiply, b, n) }
    }

    /// As a put of equal pixels, as many as the area has dots.
    pub fn draw_rect(self, area: Rectangle, color: Rgba, multiply: bool, buf: &mut [u8]) -> Answer {
        let Rectangle { x, y, w, h } = area;
        let (b, n) = (buf.as_mut_ptr(), buf.len());
        unsafe { raw::thermal_draw_rect(self, x, y, w, h, color, multiply, b, n) }
    }

    /// As `draw_rect`, multiplying.
    pub fn put_rect(self, area: Rectangle, color: Rgba, buf: &mut [u8]) -> Answer {
        let Rectangle { x, y, w, h } = area;
        let (b, n) = (buf.as_mut_ptr(), buf.len());
        unsafe { raw::thermal_put_rect(self, x, y, w, h, color, b, n) }
    }

    /// Multiplies pixels onto an area, and flips it if they are to be upside down.
    pub fn put_render_img(
        self,
        area: Rectangle,
        pixels: &[u8],
        upside_down: bool,
        buf: &mut [u8],
    ) -> Answer {
        let Rectangle { x, y, w, h } = area;
        let (p, m) = (pixels.as_ptr(), pixels.len());
        let (b, n) = (buf.as_mut_ptr(), buf.len());
        unsafe { raw::thermal_put_render_img(self, x, y, w, h, p, m, upside_down, b, n) }
    }

    /// Blends each dot of an area with its top-to-bottom mirror.
    pub fn flip_pixels(self, area: Rectangle, buf: &mut [u8]) -> Answer {
        let Rectangle { x, y, w, h } = area;
        let (b, n) = (buf.as_mut_ptr(), buf.len());
        unsafe { raw::thermal_flip_pixels(self, x, y, w, h, b, n) }
    }
}

/// Blends a colour onto the edges of a picture, and gives the number.
pub fn draw_border(w: u32, h: u32, color: Rgba, buf: &mut [u8]) -> u8 {
    // SAFETY: the address and the length are those of a slice that is lent for the call.
    unsafe { raw::thermal_draw_border(w, h, color, buf.as_mut_ptr(), buf.len()) }
}
