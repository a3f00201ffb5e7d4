//! This project's library, asked through its bindings what the original is asked. A colour is the
//! u32 whose little-endian bytes are r, g, b, a, as in the rest of this program.

pub mod canvas;
pub mod jobs;

use oracle::decoders::{Input, Kind};
use thermal::lent::{
    image_from_column_bytes_single_color, image_from_raster_bytes_multi_color,
    image_from_raster_bytes_single_color, Decoded, Sizes,
};
use thermal::{draw_dots, RenderColors, Rgba};

fn rgba(color: u32) -> Rgba {
    color.to_le_bytes().into()
}

fn number(color: Rgba) -> u32 {
    u32::from_le_bytes(color.into())
}

/// `colors` are the paper's and the three inks'.
fn render_colors(colors: [u32; 4]) -> RenderColors {
    let [paper_color, color_1, color_2, color_3] = colors.map(rgba);
    RenderColors {
        paper_color,
        color_1,
        color_2,
        color_3,
    }
}

pub fn with_alpha(color: u32, alpha: u8) -> u32 {
    number(rgba(color).with_alpha(alpha))
}

pub fn blend_foreground(dot: u32, color: u32) -> u32 {
    number(rgba(dot).blend_foreground(rgba(color)))
}

pub fn blend_foreground_with_alpha(dot: u32, color: u32, alpha: u8) -> u32 {
    number(rgba(dot).blend_foreground_with_alpha(rgba(color), alpha))
}

pub fn multiply_foreground(dot: u32, color: u32) -> u32 {
    number(rgba(dot).multiply_foreground(rgba(color)))
}

/// `colors` are the paper's and the three inks'.
pub fn color_for_number(colors: [u32; 4], n: u8) -> u32 {
    number(render_colors(colors).color_for_number(n))
}

pub fn blend_dots(dots: &mut [u8], color: u32) {
    draw_dots(dots, rgba(color), false)
}

pub fn multiply_dots(dots: &mut [u8], color: u32) {
    draw_dots(dots, rgba(color), true)
}

pub fn decode(input: &Input, out: &mut [u8]) -> Decoded {
    let sizes = Sizes {
        width: input.width,
        height: input.height,
        stretch: input.stretch,
    };
    let color = rgba(input.colors[0]);
    let bits = input.kind.takes_bits();
    match input.kind {
        Kind::RasterBits | Kind::RasterAlphas => {
            image_from_raster_bytes_single_color(sizes, color, &input.data, bits, out)
        }
        Kind::Column => image_from_column_bytes_single_color(sizes, color, &input.data, out),
        Kind::LayerBits | Kind::LayerAlphas => {
            let colors = render_colors(input.colors);
            let layers = input.num_colors;
            image_from_raster_bytes_multi_color(sizes, layers, colors, &input.data, bits, out)
        }
    }
}
