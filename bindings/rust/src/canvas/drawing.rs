//! Drawing on a canvas that owns its dots.

use super::Canvas;
use crate::error::done;
use crate::lent::{self, Rectangle};
use crate::{Error, Image, Rgba};

/// What is put is cropped where `x + w` is above the width, or growth is off and `y + w` (its width, as
/// in the original) is above the height: then to the canvas's width and, with growth off, to its height.
impl Canvas {
    /// Blends or multiplies pixels, four bytes each, onto an area.
    ///
    /// ```
    /// # use thermal::{Canvas, Error, Rectangle};
    /// let mut canvas = Canvas::new(2)?;
    /// let area = Rectangle { x: 1, y: 0, w: 1, h: 2 };
    /// canvas.put_pixels(area, &[0, 0, 0, 255], false)?;
    /// assert_eq!(canvas.get_height(), 2);
    /// assert_eq!(canvas.dots()[..8], [255, 255, 255, 255, 0, 0, 0, 255]);
    /// assert_eq!(canvas.put_pixels(area, &[0; 12], false), Err(Error::TooMany));
    /// # Ok::<(), Error>(())
    /// ```
    pub fn put_pixels(
        &mut self,
        area: Rectangle,
        pixels: &[u8],
        multiply: bool,
    ) -> Result<(), Error> {
        self.change(|image, buf| image.put_pixels(area, pixels, multiply, buf))
    }

    /// Blends or multiplies one colour onto an area.
    ///
    /// ```
    /// # use thermal::{Canvas, Error, Rectangle, Rgba};
    /// let mut canvas = Canvas::new(4)?;
    /// canvas.auto_grow = false;
    /// let area = Rectangle { x: 0, y: 0, w: 4, h: 1 };
    /// assert_eq!(canvas.draw_rect(area, Rgba::BLACK, false), Err(Error::OffPaper));
    /// canvas.auto_grow = true;
    /// canvas.draw_rect(area, Rgba::new(0, 0, 0, 128), false)?;
    /// assert_eq!(canvas.dot(3, 0), Some(Rgba::new(127, 127, 127, 255)));
    /// # Ok::<(), Error>(())
    /// ```
    pub fn draw_rect(&mut self, area: Rectangle, color: Rgba, multiply: bool) -> Result<(), Error> {
        self.change(|image, buf| image.draw_rect(area, color, multiply, buf))
    }

    /// Multiplies one colour onto an area.
    pub fn put_rect(&mut self, area: Rectangle, color: Rgba) -> Result<(), Error> {
        self.change(|image, buf| image.put_rect(area, color, buf))
    }

    /// Multiplies an image onto the canvas, upright or upside down.
    ///
    /// ```
    /// # use thermal::{Canvas, Error, Rgba};
    /// use thermal::{image_from_raster_bytes_single_color, Sizes};
    /// let mark = [0x80, 0x00];
    /// let mark = image_from_raster_bytes_single_color(Sizes::new(1, 2), Rgba::BLACK, &mark, true)?;
    /// let mut canvas = Canvas::new(8)?;
    /// canvas.put_render_img(3, 0, &mark, true)?;
    /// assert_eq!(canvas.dot(3, 0), Some(Rgba::WHITE));
    /// assert_eq!(canvas.dot(3, 1), Some(Rgba::BLACK));
    /// # Ok::<(), Error>(())
    /// ```
    pub fn put_render_img(
        &mut self,
        x: u32,
        y: u32,
        image: &Image,
        upside_down: bool,
    ) -> Result<(), Error> {
        let Image { w, h, ref pixels } = *image;
        let area = Rectangle { x, y, w, h };
        self.change(|image, buf| image.put_render_img(area, pixels, upside_down, buf))
    }

    /// Blends each dot of an area with its top-to-bottom mirror.
    ///
    /// ```
    /// # use thermal::{Canvas, Error, Rectangle, Rgba};
    /// let mut canvas = Canvas::new(1)?;
    /// canvas.put_rect(Rectangle { x: 0, y: 0, w: 1, h: 1 }, Rgba::BLACK)?;
    /// canvas.flip_pixels(Rectangle { x: 0, y: 0, w: 1, h: 3 })?;
    /// assert_eq!(canvas.dot(0, 2), Some(Rgba::BLACK));
    /// # Ok::<(), Error>(())
    /// ```
    pub fn flip_pixels(&mut self, area: Rectangle) -> Result<(), Error> {
        self.change(|image, buf| image.flip_pixels(area, buf))
    }

    /// Blends a colour onto the edges of any picture. A corner lies on two edges.
    ///
    /// ```
    /// # use thermal::{Canvas, Error, Rgba};
    /// let mut canvas = Canvas::new(3)?;
    /// canvas.expand_to_height(3)?;
    /// Canvas::draw_border(canvas.dots_mut(), 3, 3, Rgba::BLACK)?;
    /// assert_eq!(canvas.dot(0, 1), Some(Rgba::BLACK));
    /// assert_eq!(canvas.dot(1, 1), Some(Rgba::WHITE));
    /// # Ok::<(), Error>(())
    /// ```
    pub fn draw_border(dots: &mut [u8], width: u32, height: u32, color: Rgba) -> Result<(), Error> {
        done(lent::draw_border(width, height, color, dots), ())
    }
}
