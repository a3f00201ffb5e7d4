//! The boundary call by call: the caller keeps the canvas record and lends every buffer, and is
//! given the number. Nothing is allocated. A refused call hands back the record as it was given and
//! zero in all else, and writes to no buffer.
//!
//! ```
//! use thermal::lent::{Rectangle, ThermalImage};
//! use thermal::{Error, Rgba};
//!
//! let image = ThermalImage::new(10).done()?;
//! let mut buf = [0; 4 * 10 * 2];
//! let area = Rectangle { x: 8, y: 1, w: 5, h: 1 };
//! let image = image.put_rect(area, Rgba::BLACK, &mut buf).done()?;
//! assert_eq!((image.width, image.height), (10, 2));
//! assert_eq!(buf[4 * 18..], [0, 0, 0, 255, 0, 0, 0, 255]);
//!
//! let answer = image.add_top_margin(1, &mut buf);
//! assert_eq!(answer.number, Error::NoRoom.number());
//! assert_eq!(answer.image, image);
//! # Ok::<(), Error>(())
//! ```

mod canvas;
mod drawing;
mod images;
mod jobs;

pub use crate::raw::{
    Answer, Copied, Decoded, Plan, Ran, Rgb, RowAnswer, ThermalImage, Translated,
};
pub use drawing::{draw_border, Rectangle};
pub use images::{
    image_from_column_bytes_single_color, image_from_raster_bytes_multi_color,
    image_from_raster_bytes_single_color, Sizes,
};
pub use jobs::{row, rows, run, translate};
