//! Decoding of printer images.

use crate::lent::{self, Decoded, Sizes};
use crate::room::lend;
use crate::{Error, RenderColors, Rgba};

/// A picture: its dots row by row, four bytes r, g, b, a each.
#[derive(Clone, Debug, PartialEq, Eq)]
pub struct Image {
    pub w: u32,
    pub h: u32,
    pub pixels: Vec<u8>,
}

/// Decodes rows of bits, top bit first, each row filled up to whole bytes; or of alphas.
///
/// ```
/// use thermal::{image_from_raster_bytes_single_color, Error, Rgba, Sizes};
/// let decode = |sizes, data| image_from_raster_bytes_single_color(sizes, Rgba::BLACK, data, true);
///
/// let image = decode(Sizes::new(3, 2), &[0xa0, 0x40])?;
/// let alphas: Vec<u8> = image.pixels.chunks(4).map(|dot| dot[3]).collect();
/// assert_eq!(alphas, [255, 0, 255, 0, 255, 0]);
///
/// // The damaged mark: its header announces 2^32 dots.
/// assert_eq!(decode(Sizes::new(512, 8_388_608), &[]), Err(Error::TooLarge));
/// # Ok::<(), Error>(())
/// ```
pub fn image_from_raster_bytes_single_color(
    sizes: Sizes,
    color: Rgba,
    data: &[u8],
    process_as_bits: bool,
) -> Result<Image, Error> {
    image(|out| {
        lent::image_from_raster_bytes_single_color(sizes, color, data, process_as_bits, out)
    })
}

/// Decodes columns of bits, top bit first, each column filled up to whole bytes.
///
/// ```
/// use thermal::{image_from_column_bytes_single_color, Rgba, Sizes};
/// let sizes = Sizes { stretch: (2, 1), ..Sizes::new(2, 3) };
/// let image = image_from_column_bytes_single_color(sizes, Rgba::BLACK, &[0xa0, 0x40])?;
/// assert_eq!((image.w, image.h, image.pixels.len()), (4, 3, 48));
/// # Ok::<(), thermal::Error>(())
/// ```
pub fn image_from_column_bytes_single_color(
    sizes: Sizes,
    color: Rgba,
    data: &[u8],
) -> Result<Image, Error> {
    image(|out| lent::image_from_column_bytes_single_color(sizes, color, data, out))
}

/// Decodes layers, each a colour's number and then rows of bits or of alphas. Layers of bits make an
/// image only if the width is one of whole bytes.
///
/// ```
/// use thermal::{image_from_raster_bytes_multi_color, Error, RenderColors, Rgba, Sizes};
/// let colors = RenderColors { color_1: Rgba::BLACK, ..Default::default() };
/// let decode = |width| {
///     let data = [1, 0x80];
///     image_from_raster_bytes_multi_color(Sizes::new(width, 1), 1, colors, &data, true)
/// };
/// assert_eq!(decode(8)?.pixels[..8], [0, 0, 0, 255, 0, 0, 0, 0]);
/// assert_eq!(decode(12), Err(Error::WrongLength));
/// # Ok::<(), Error>(())
/// ```
pub fn image_from_raster_bytes_multi_color(
    sizes: Sizes,
    num_colors: u8,
    colors: RenderColors,
    data: &[u8],
    process_as_bits: bool,
) -> Result<Image, Error> {
    image(|out| {
        lent::image_from_raster_bytes_multi_color(
            sizes,
            num_colors,
            colors,
            data,
            process_as_bits,
            out,
        )
    })
}

/// Decodes to a buffer of the image's own length.
fn image(mut decode: impl FnMut(&mut [u8]) -> Decoded) -> Result<Image, Error> {
    let mut pixels = Vec::new();
    let (w, h) = lend(&mut pixels, |out| decode(out).done())?;
    pixels.truncate(4 * w as usize * h as usize);
    Ok(Image { w, h, pixels })
}
