//! Colours, and every dot of a buffer under one.

use crate::raw;
pub use raw::{RenderColors, Rgba};

/// Values go in and values come out.
///
/// ```
/// use thermal::Rgba;
/// let grey = Rgba::WHITE.blend_foreground(Rgba::new(0, 0, 0, 128));
/// assert_eq!(grey, Rgba::new(127, 127, 127, 255));
/// // Blue takes green's value, as in the original.
/// assert_eq!(Rgba::new(10, 20, 30, 255).with_alpha(7), Rgba::new(10, 20, 20, 7));
/// ```
impl Rgba {
    pub const BLANK: Rgba = Rgba::new(0, 0, 0, 0);
    pub const WHITE: Rgba = Rgba::new(255, 255, 255, 255);
    pub const BLACK: Rgba = Rgba::new(0, 0, 0, 255);

    pub const fn new(r: u8, g: u8, b: u8, a: u8) -> Self {
        Rgba { r, g, b, a }
    }

    pub fn with_alpha(self, alpha: u8) -> Self {
        raw::thermal_with_alpha(self, alpha)
    }

    pub fn blend_foreground(self, color: Rgba) -> Self {
        raw::thermal_blend_foreground(self, color)
    }

    /// Blends at `alpha`, whatever the colour's own is.
    pub fn blend_foreground_with_alpha(self, color: Rgba, alpha: u8) -> Self {
        raw::thermal_blend_foreground_with_alpha(self, color, alpha)
    }

    /// Multiplies, so that white does not cover black.
    pub fn multiply_foreground(self, color: Rgba) -> Self {
        raw::thermal_multiply_foreground(self, color)
    }
}

impl From<[u8; 4]> for Rgba {
    fn from([r, g, b, a]: [u8; 4]) -> Self {
        Rgba { r, g, b, a }
    }
}

impl From<Rgba> for [u8; 4] {
    fn from(Rgba { r, g, b, a }: Rgba) -> Self {
        [r, g, b, a]
    }
}

impl RenderColors {
    /// 0 is the paper; 1 and 49, 2 and 50, 3 and 51 are the inks; all others are ink 1.
    ///
    /// ```
    /// use thermal::{RenderColors, Rgba};
    /// let colors = RenderColors { color_3: Rgba::BLACK, ..Default::default() };
    /// assert_eq!(colors.color_for_number(51), Rgba::BLACK);
    /// ```
    pub fn color_for_number(self, number: u8) -> Rgba {
        raw::thermal_color_for_number(self, number)
    }
}

/// Blends a colour onto every whole dot of a buffer, or multiplies them by it.
///
/// ```
/// use thermal::{draw_dots, Rgba};
/// let mut dots = [255, 255, 255, 255, 200, 200, 200, 255];
/// draw_dots(&mut dots, Rgba::new(100, 100, 100, 255), true);
/// assert_eq!(dots, [100, 100, 100, 255, 78, 78, 78, 255]);
/// ```
pub fn draw_dots(dots: &mut [u8], color: Rgba, multiply: bool) {
    // SAFETY: the address and the length are those of a slice that is lent for the call.
    unsafe { raw::thermal_draw_dots(dots.as_mut_ptr(), dots.len(), color, multiply) }
}
