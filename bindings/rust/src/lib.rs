//! The drawing core of a printer-strip renderer, each function of which is proved to meet its
//! contract: colours, decoding of printer images, and the canvas that they are put on.
//!
//! No input stops the library or goes wrong inside it. Each has one answer, which is a picture by
//! the rules or one of the refusals of document 01, an [`Error`].
//!
//! [`Canvas`] owns its dots. [`job`] draws whole strips, or single rows of them. [`lent`] is the same boundary with every buffer lent by the caller, and
//! [`raw`] is the library's functions as they are.
//!
//! ```
//! use thermal::{image_from_raster_bytes_single_color, Canvas, Error, Rgba, Sizes};
//!
//! // A mark of 8 by 3 dots, each stretched to 2 by 2.
//! let sizes = Sizes { stretch: (2, 2), ..Sizes::new(8, 3) };
//! let mark = image_from_raster_bytes_single_color(sizes, Rgba::BLACK, &[0xff, 0x81, 0xff], true)?;
//!
//! let mut canvas = Canvas::new(20)?;
//! canvas.put_render_img(2, 0, &mark, false)?;
//! canvas.add_top_margin(4)?;
//! assert_eq!((canvas.width(), canvas.get_height()), (20, 10));
//!
//! let (width, height, rgb) = canvas.consume_rgb_u8();
//! assert_eq!(rgb.len() as u32, 3 * width * height);
//! # Ok::<(), Error>(())
//! ```

mod canvas;
mod colour;
mod error;
mod image;
pub mod job;
pub mod lent;
pub mod raw;
mod room;

pub use canvas::Canvas;
pub use colour::{draw_dots, RenderColors, Rgba};
pub use error::Error;
pub use image::{
    image_from_column_bytes_single_color, image_from_raster_bytes_multi_color,
    image_from_raster_bytes_single_color, Image,
};
pub use lent::{Rectangle, Sizes};
