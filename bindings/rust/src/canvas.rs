//! A canvas that owns its dots.

mod drawing;

use crate::lent::{Answer, ThermalImage};
use crate::room::lend;
use crate::{Error, Image, Rgba};

/// A canvas has a sound record and a buffer with room for it.
const SOUND: &str = "a canvas that owns its dots is sound";

/// A canvas as wide as its paper, which grows in height as it is drawn on. Its methods have the
/// original's names. It owns its dots and makes room for them; what it refuses changes nothing.
///
/// ```
/// use thermal::{Canvas, Error, Rectangle, Rgba};
///
/// let mut canvas = Canvas::new(10)?;
/// canvas.put_rect(Rectangle { x: 2, y: 1, w: 3, h: 1 }, Rgba::BLACK)?;
/// assert_eq!((canvas.width(), canvas.get_height()), (10, 2));
/// assert_eq!(canvas.dot(2, 1), Some(Rgba::BLACK));
///
/// let beside = Rectangle { x: 10, y: 0, w: 1, h: 1 };
/// assert_eq!(canvas.put_rect(beside, Rgba::BLACK), Err(Error::OffPaper));
/// # Ok::<(), Error>(())
/// ```
#[derive(Clone)]
pub struct Canvas {
    width: u32,
    height: u32,
    /// Whether what is put below the last row adds rows.
    pub auto_grow: bool,
    /// The colour of new rows and columns.
    pub paper_color: Rgba,
    /// The dots, and room for more.
    buf: Vec<u8>,
}

impl Canvas {
    /// The largest width and height.
    pub const LIMIT: u32 = 16_384;

    /// An empty canvas: no rows, growth on, white paper.
    ///
    /// ```
    /// use thermal::{Canvas, Error};
    /// assert_eq!(Canvas::new(Canvas::LIMIT)?.get_height(), 0);
    /// assert_eq!(Canvas::new(Canvas::LIMIT + 1).err(), Some(Error::TooLarge));
    /// # Ok::<(), Error>(())
    /// ```
    pub fn new(width: u32) -> Result<Self, Error> {
        let image = ThermalImage::new(width).done()?;
        Ok(Canvas::of(image, Vec::new()))
    }

    /// A canvas that the library answers, whose dots are in the buffer.
    pub(crate) fn of(image: ThermalImage, buf: Vec<u8>) -> Self {
        Canvas {
            width: image.width,
            height: image.height,
            auto_grow: image.auto_grow,
            paper_color: image.paper_color,
            buf,
        }
    }

    pub fn width(&self) -> u32 {
        self.width
    }

    pub fn get_height(&self) -> u32 {
        self.image().get_height()
    }

    /// The dots row by row, four bytes r, g, b, a each.
    pub fn dots(&self) -> &[u8] {
        &self.buf[..self.length()]
    }

    /// The dots, to be written to.
    pub fn dots_mut(&mut self) -> &mut [u8] {
        let length = self.length();
        &mut self.buf[..length]
    }

    /// The dot at a place of the canvas.
    pub fn dot(&self, x: u32, y: u32) -> Option<Rgba> {
        if x >= self.width || y >= self.height {
            return None;
        }
        let at = y as usize * self.width as usize + x as usize;
        let dot: [u8; 4] = self.buf[4 * at..][..4].try_into().unwrap();
        Some(dot.into())
    }

    /// Adds rows of paper below, up to that height.
    ///
    /// ```
    /// # use thermal::{Canvas, Error, Rgba};
    /// let mut canvas = Canvas::new(2)?;
    /// canvas.expand_to_height(1)?;
    /// assert_eq!(canvas.dots(), [255; 8]);
    /// assert_eq!(canvas.expand_to_height(16_385), Err(Error::TooTall));
    /// # Ok::<(), Error>(())
    /// ```
    pub fn expand_to_height(&mut self, height: u32) -> Result<(), Error> {
        self.change(|image, buf| image.expand_to_height(height, buf))
    }

    /// Adds rows of paper at the top.
    ///
    /// ```
    /// # use thermal::{Canvas, Error, Rectangle, Rgba};
    /// let mut canvas = Canvas::new(1)?;
    /// canvas.put_rect(Rectangle { x: 0, y: 0, w: 1, h: 1 }, Rgba::BLACK)?;
    /// canvas.add_top_margin(2)?;
    /// assert_eq!(canvas.dot(0, 2), Some(Rgba::BLACK));
    /// # Ok::<(), Error>(())
    /// ```
    pub fn add_top_margin(&mut self, height: u32) -> Result<(), Error> {
        self.change(|image, buf| image.add_top_margin(height, buf))
    }

    /// Adds columns of paper at both sides, up to that width.
    ///
    /// ```
    /// # use thermal::{Canvas, Error, Rectangle, Rgba};
    /// let mut canvas = Canvas::new(1)?;
    /// canvas.put_rect(Rectangle { x: 0, y: 0, w: 1, h: 1 }, Rgba::BLACK)?;
    /// canvas.expand_to_width(4)?;
    /// assert_eq!(canvas.dot(1, 0), Some(Rgba::BLACK));
    /// # Ok::<(), Error>(())
    /// ```
    pub fn expand_to_width(&mut self, new_width: u32) -> Result<(), Error> {
        self.change(|image, buf| image.expand_to_width(new_width, buf))
    }

    /// Takes another width, and empties the canvas.
    ///
    /// ```
    /// # use thermal::{Canvas, Error};
    /// let mut canvas = Canvas::new(3)?;
    /// canvas.expand_to_height(2)?;
    /// canvas.set_width(5)?;
    /// assert_eq!((canvas.width(), canvas.get_height()), (5, 0));
    /// # Ok::<(), Error>(())
    /// ```
    pub fn set_width(&mut self, width: u32) -> Result<(), Error> {
        self.change(|image, buf| image.set_width(width, buf))
    }

    /// Takes all rows away.
    pub fn empty(&mut self) {
        self.change(|image, buf| image.empty(buf)).expect(SOUND)
    }

    /// Takes all rows away.
    pub fn reset(&mut self) {
        self.change(|image, buf| image.reset(buf)).expect(SOUND)
    }

    /// The picture that is on it.
    ///
    /// ```
    /// # use thermal::{Canvas, Error};
    /// let mut canvas = Canvas::new(3)?;
    /// canvas.expand_to_height(2)?;
    /// let image = canvas.copy();
    /// assert_eq!((image.w, image.h, &image.pixels[..]), (3, 2, canvas.dots()));
    /// # Ok::<(), Error>(())
    /// ```
    pub fn copy(&self) -> Image {
        let mut pixels = vec![0; self.length()];
        let copied = self.image().copy(&self.buf, &mut pixels).done();
        let (w, h) = copied.expect(SOUND);
        Image { w, h, pixels }
    }

    /// Width, height and r, g, b of each dot. It leaves a canvas without width and height.
    ///
    /// ```
    /// # use thermal::{Canvas, Error};
    /// let mut canvas = Canvas::new(2)?;
    /// canvas.expand_to_height(1)?;
    /// assert_eq!(canvas.consume_rgb_u8(), (2, 1, vec![255; 6]));
    /// assert_eq!((canvas.width(), canvas.get_height()), (0, 0));
    /// # Ok::<(), Error>(())
    /// ```
    pub fn consume_rgb_u8(&mut self) -> (u32, u32, Vec<u8>) {
        let mut bytes = vec![0; self.length() / 4 * 3];
        let written = self.image().consume_rgb_u8(&self.buf, &mut bytes).done();
        let (next, w, h) = written.expect(SOUND);
        self.take(next);
        (w, h, bytes)
    }

    /// Turns the canvas, so that its first row becomes its last column.
    ///
    /// ```
    /// # use thermal::{Canvas, Error, Rectangle, Rgba};
    /// let mut canvas = Canvas::new(3)?;
    /// canvas.expand_to_height(2)?;
    /// canvas.put_rect(Rectangle { x: 0, y: 0, w: 1, h: 1 }, Rgba::BLACK)?;
    /// canvas.rotate_90();
    /// assert_eq!((canvas.width(), canvas.get_height()), (2, 3));
    /// assert_eq!(canvas.dot(1, 0), Some(Rgba::BLACK));
    /// # Ok::<(), Error>(())
    /// ```
    pub fn rotate_90(&mut self) {
        self.turn(ThermalImage::rotate_90)
    }

    /// Turns the canvas upside down, as paper is turned.
    pub fn rotate_180(&mut self) {
        self.turn(ThermalImage::rotate_180)
    }

    /// Turns the canvas, so that its first row becomes its first column.
    pub fn rotate_270(&mut self) {
        self.turn(ThermalImage::rotate_270)
    }

    /// The canvas but for its dots.
    fn image(&self) -> ThermalImage {
        ThermalImage {
            width: self.width,
            height: self.height,
            auto_grow: self.auto_grow,
            paper_color: self.paper_color,
        }
    }

    fn take(&mut self, next: ThermalImage) {
        self.width = next.width;
        self.height = next.height;
        self.auto_grow = next.auto_grow;
        self.paper_color = next.paper_color;
    }

    /// The bytes of its dots.
    fn length(&self) -> usize {
        4 * self.width as usize * self.height as usize
    }

    fn change(
        &mut self,
        operation: impl Fn(ThermalImage, &mut [u8]) -> Answer,
    ) -> Result<(), Error> {
        let image = self.image();
        let next = lend(&mut self.buf, |buf| operation(image, buf).done())?;
        self.take(next);
        Ok(())
    }

    fn turn(&mut self, operation: fn(ThermalImage, &[u8], &mut [u8]) -> Answer) {
        let mut out = vec![0; self.length()];
        let next = operation(self.image(), &self.buf, &mut out).done();
        self.take(next.expect(SOUND));
        self.buf = out;
    }
}
