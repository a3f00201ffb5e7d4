//! Colours, and every dot of a buffer under one.

/// A pixel, or dot: red, green, blue, and how opaque it is.
#[repr(C)]
#[derive(Clone, Copy, Debug, Default, PartialEq, Eq, Hash)]
pub struct Rgba {
    pub r: u8,
    pub g: u8,
    pub b: u8,
    pub a: u8,
}

/// The paper's colour and the three inks'.
#[repr(C)]
#[derive(Clone, Copy, Debug, Default, PartialEq, Eq, Hash)]
pub struct RenderColors {
    pub paper_color: Rgba,
    pub color_1: Rgba,
    pub color_2: Rgba,
    pub color_3: Rgba,
}

unsafe extern "C" {
    pub safe fn thermal_with_alpha(color: Rgba, alpha: u8) -> Rgba;
    pub safe fn thermal_blend_foreground(dot: Rgba, color: Rgba) -> Rgba;
    pub safe fn thermal_blend_foreground_with_alpha(dot: Rgba, color: Rgba, alpha: u8) -> Rgba;
    pub safe fn thermal_multiply_foreground(dot: Rgba, color: Rgba) -> Rgba;
    pub safe fn thermal_color_for_number(colors: RenderColors, number: u8) -> Rgba;
    pub fn thermal_draw_dots(dots: *mut u8, length: usize, color: Rgba, multiply: bool);
}
