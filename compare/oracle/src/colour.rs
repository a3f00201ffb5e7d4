//! Colours, each as the u32 whose little-endian bytes are r, g, b, a.

use crate::stops::answer;
use thermal_parser::context::RenderColors;
use thermal_parser::graphics::RGBA;

pub fn rgba(color: u32) -> RGBA {
    let [r, g, b, a] = color.to_le_bytes();
    RGBA { r, g, b, a }
}

pub fn number(color: RGBA) -> u32 {
    u32::from_le_bytes([color.r, color.g, color.b, color.a])
}

/// The four bytes in hex, in the order r, g, b, a.
pub fn hex(color: u32) -> String {
    format!("{:08x}", color.swap_bytes())
}

pub fn with_alpha(color: u32, alpha: u8) -> Option<u32> {
    answer(|| number(rgba(color).with_alpha(alpha)))
}

pub fn blend_foreground(dot: u32, color: u32) -> Option<u32> {
    answer(|| {
        let mut dot = rgba(dot);
        dot.blend_foreground(&rgba(color));
        number(dot)
    })
}

pub fn blend_foreground_with_alpha(dot: u32, color: u32, alpha: u8) -> Option<u32> {
    answer(|| {
        let mut dot = rgba(dot);
        dot.blend_foreground_with_alpha(&rgba(color), &alpha);
        number(dot)
    })
}

pub fn multiply_foreground(dot: u32, color: u32) -> Option<u32> {
    answer(|| {
        let mut dot = rgba(dot);
        dot.multiply_foreground(&rgba(color));
        number(dot)
    })
}

/// `colors` are the paper's and the three inks'.
pub fn color_for_number(colors: [u32; 4], n: u8) -> Option<u32> {
    answer(|| number(*render_colors(colors).color_for_number(n)))
}

/// `colors` are the paper's and the three inks'.
pub fn render_colors(colors: [u32; 4]) -> RenderColors {
    let [paper_color, color_1, color_2, color_3] = colors.map(rgba);
    RenderColors {
        paper_color,
        color_1,
        color_2,
        color_3,
    }
}
