//! The canvas: each operation takes the record and gives the next one.

use super::{Answer, Copied, Rgb, ThermalImage};
use crate::error::{done, Error};
use crate::raw;

// SAFETY, in all of these: each address and length are those of a slice that is lent for the call.
impl ThermalImage {
    /// An empty canvas: no rows, growth on, white paper. As every operation it answers a number too.
    #[allow(clippy::new_ret_no_self)]
    pub fn new(width: u32) -> Answer {
        raw::thermal_new(width)
    }

    /// The height that a record says, sound or not: with no width there is none.
    pub fn get_height(self) -> u32 {
        raw::thermal_get_height(self)
    }

    /// Adds rows of paper below, up to that height.
    pub fn expand_to_height(self, height: u32, buf: &mut [u8]) -> Answer {
        unsafe { raw::thermal_expand_to_height(self, height, buf.as_mut_ptr(), buf.len()) }
    }

    /// Adds rows of paper at the top.
    pub fn add_top_margin(self, height: u32, buf: &mut [u8]) -> Answer {
        unsafe { raw::thermal_add_top_margin(self, height, buf.as_mut_ptr(), buf.len()) }
    }

    /// Adds columns of paper at both sides, up to that width.
    pub fn expand_to_width(self, new_width: u32, buf: &mut [u8]) -> Answer {
        unsafe { raw::thermal_expand_to_width(self, new_width, buf.as_mut_ptr(), buf.len()) }
    }

    /// Takes another width, and empties the canvas.
    pub fn set_width(self, width: u32, buf: &[u8]) -> Answer {
        unsafe { raw::thermal_set_width(self, width, buf.as_ptr(), buf.len()) }
    }

    /// Takes all rows away.
    pub fn empty(self, buf: &[u8]) -> Answer {
        unsafe { raw::thermal_empty(self, buf.as_ptr(), buf.len()) }
    }

    /// Takes all rows away.
    pub fn reset(self, buf: &[u8]) -> Answer {
        unsafe { raw::thermal_reset(self, buf.as_ptr(), buf.len()) }
    }

    /// Writes out the dots.
    pub fn copy(self, buf: &[u8], out: &mut [u8]) -> Copied {
        let (b, n) = (buf.as_ptr(), buf.len());
        unsafe { raw::thermal_copy(self, b, n, out.as_mut_ptr(), out.len()) }
    }

    /// Writes out the dots, three bytes each, and leaves a canvas without width and height.
    pub fn consume_rgb_u8(self, buf: &[u8], out: &mut [u8]) -> Rgb {
        let (b, n) = (buf.as_ptr(), buf.len());
        unsafe { raw::thermal_consume_rgb_u8(self, b, n, out.as_mut_ptr(), out.len()) }
    }

    /// Writes out the canvas turned, which `out` holds from then on.
    pub fn rotate_90(self, buf: &[u8], out: &mut [u8]) -> Answer {
        let (b, n) = (buf.as_ptr(), buf.len());
        unsafe { raw::thermal_rotate_90(self, b, n, out.as_mut_ptr(), out.len()) }
    }

    /// As `rotate_90`, by 180 degrees.
    pub fn rotate_180(self, buf: &[u8], out: &mut [u8]) -> Answer {
        let (b, n) = (buf.as_ptr(), buf.len());
        unsafe { raw::thermal_rotate_180(self, b, n, out.as_mut_ptr(), out.len()) }
    }

    /// As `rotate_90`, by 270 degrees.
    pub fn rotate_270(self, buf: &[u8], out: &mut [u8]) -> Answer {
        let (b, n) = (buf.as_ptr(), buf.len());
        unsafe { raw::thermal_rotate_270(self, b, n, out.as_mut_ptr(), out.len()) }
    }
}

impl Answer {
    /// The next canvas.
    pub fn done(self) -> Result<ThermalImage, Error> {
        done(self.number, self.image)
    }
}

impl Copied {
    /// Width and height of what is written.
    pub fn done(self) -> Result<(u32, u32), Error> {
        done(self.number, (self.width, self.height))
    }
}

impl Rgb {
    /// The next canvas, and width and height of what is written.
    pub fn done(self) -> Result<(ThermalImage, u32, u32), Error> {
        done(self.number, (self.image, self.width, self.height))
    }
}
