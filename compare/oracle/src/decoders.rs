//! Decoding of images.

use crate::colour::{number, render_colors, rgba};
use crate::rules::{LAYER_SIZE, NO_LAYERS, WRONG_LENGTH};
use crate::stops::answer;
use thermal_parser::graphics::{GraphicsCommand, Image, ImageFlow};

/// A decoder, and what it takes its data for.
#[derive(Clone, Copy, Debug, PartialEq, Eq)]
pub enum Kind {
    RasterBits,
    RasterAlphas,
    Column,
    LayerBits,
    LayerAlphas,
}

impl Kind {
    pub const ALL: [Kind; 5] = [
        Kind::RasterBits,
        Kind::RasterAlphas,
        Kind::Column,
        Kind::LayerBits,
        Kind::LayerAlphas,
    ];

    pub fn has_layers(self) -> bool {
        matches!(self, Kind::LayerBits | Kind::LayerAlphas)
    }

    pub fn takes_bits(self) -> bool {
        !matches!(self, Kind::RasterAlphas | Kind::LayerAlphas)
    }
}

#[derive(Clone, Debug)]
pub struct Input {
    pub kind: Kind,
    pub width: u32,
    pub height: u32,
    pub stretch: (u8, u8),
    /// The number of layers; without layers it is not looked at.
    pub num_colors: u8,
    /// The paper's and the three inks'; without layers the first is the image's.
    pub colors: [u32; 4],
    pub data: Vec<u8>,
}

#[derive(Clone, Debug, PartialEq)]
pub enum Answer {
    Image { w: u32, h: u32, dots: Vec<u8> },
    Refused(u8),
}

/// What the original answers, or nothing where it stops.
pub fn decode(input: &Input) -> Option<Answer> {
    answer(|| command(input)).map(|command| match command {
        GraphicsCommand::Image(image) => Answer::Image {
            w: image.w,
            h: image.h,
            dots: dots(&image),
        },
        GraphicsCommand::Error(message) => Answer::Refused(number_of(&message)),
        other => panic!("no decoder of the original answers {other:?}"),
    })
}

/// The original's call alone.
pub fn command(input: &Input) -> GraphicsCommand {
    let flow = ImageFlow::None;
    match input.kind {
        Kind::RasterBits | Kind::RasterAlphas => {
            GraphicsCommand::image_from_raster_bytes_single_color(
                input.width,
                input.height,
                input.stretch,
                &rgba(input.colors[0]),
                flow,
                &input.data,
                input.kind.takes_bits(),
            )
        }
        Kind::Column => GraphicsCommand::image_from_column_bytes_single_color(
            input.width,
            input.height,
            input.stretch,
            &rgba(input.colors[0]),
            flow,
            &input.data,
        ),
        Kind::LayerBits | Kind::LayerAlphas => {
            GraphicsCommand::image_from_raster_bytes_multi_color(
                input.width,
                input.height,
                input.stretch,
                input.num_colors,
                &render_colors(input.colors),
                flow,
                &input.data,
                input.kind.takes_bits(),
            )
        }
    }
}

/// The dots' bytes, r, g, b, a each.
pub fn dots(image: &Image) -> Vec<u8> {
    image
        .pixels
        .iter()
        .flat_map(|&dot| number(dot).to_le_bytes())
        .collect()
}

/// The scope's number for one of the original's errors.
fn number_of(message: &str) -> u8 {
    match message {
        "No layers to merge" => NO_LAYERS,
        "Can't merge image layers with different w and h" => LAYER_SIZE,
        _ if message.starts_with("Not enough data to parse") => WRONG_LENGTH,
        _ => panic!("no number for the original's error {message:?}"),
    }
}

#[cfg(test)]
mod tests {
    use super::{decode, Answer, Input, Kind};

    fn input(kind: Kind, width: u32, height: u32, num_colors: u8, data: &[u8]) -> Input {
        Input {
            kind,
            width,
            height,
            stretch: (1, 1),
            num_colors,
            colors: [0x1e140a; 4],
            data: data.to_vec(),
        }
    }

    fn alphas(input: &Input) -> Vec<u8> {
        match decode(input) {
            Some(Answer::Image { dots, .. }) => dots.chunks(4).map(|dot| dot[3]).collect(),
            other => panic!("{other:?}"),
        }
    }

    #[test]
    fn the_scopes_examples() {
        let raster = input(Kind::RasterBits, 3, 2, 0, &[0xa0, 0x40]);
        assert_eq!(alphas(&raster), [255, 0, 255, 0, 255, 0]);
        let column = input(Kind::Column, 2, 3, 0, &[0xa0, 0x40]);
        assert_eq!(alphas(&column), [255, 0, 0, 255, 255, 0]);
        for refused in [
            input(Kind::RasterBits, 3, 2, 0, &[0xa0]),
            input(Kind::RasterBits, 0, 5, 0, &[0xa0]),
            input(Kind::LayerBits, 12, 1, 1, &[1, 0xa0]),
            input(Kind::LayerBits, 8, 1, 0, &[1]),
        ] {
            assert_eq!(decode(&refused), Some(Answer::Refused(3)), "{refused:?}");
        }
        let no_layers = input(Kind::LayerBits, 8, 1, 0, &[]);
        assert_eq!(decode(&no_layers), Some(Answer::Refused(4)));
    }

    #[test]
    fn blue_is_green_and_the_stretched_size_is_answered() {
        let dot = Input {
            stretch: (0, 2),
            ..input(Kind::RasterAlphas, 1, 1, 0, &[7])
        };
        let dots = [10, 20, 20, 7, 10, 20, 20, 7].to_vec();
        assert_eq!(decode(&dot), Some(Answer::Image { w: 1, h: 2, dots }));
    }

    #[test]
    fn a_short_column_stops() {
        assert_eq!(decode(&input(Kind::Column, 2, 3, 0, &[0xa0])), None);
    }
}
