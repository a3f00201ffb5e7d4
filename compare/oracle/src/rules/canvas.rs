//! The number that the scope asks of a canvas operation, worked out from its text: for each the
//! tests in the scope's order. Sums and products are of u128, so none wraps.

use super::{
    BAD_CANVAS, DONE, EMPTY_AREA, LARGEST, NO_ROOM, OFF_PAPER, SHORT, TOO_LARGE, TOO_MANY,
    TOO_TALL, WRONG_LENGTH,
};
use crate::canvas::{Area, Operation, Record, Turn};

/// The lengths of what is lent: the canvas's buffer, and a second one for what is written out.
#[derive(Clone, Copy, Debug)]
pub struct Lent {
    pub canvas: usize,
    pub out: usize,
}

/// A number, and whether it is due if none before it is.
type Test = (u8, bool);

fn first(tests: &[Test]) -> u8 {
    let due = tests.iter().find(|(_, refused)| *refused);
    due.map_or(DONE, |&(number, _)| number)
}

const LIMIT: u128 = LARGEST as u128;

pub fn due(operation: &Operation, given: &Record, lent: Lent) -> u8 {
    let (w, h) = (u128::from(given.width), u128::from(given.height));
    let (canvas, out) = (lent.canvas as u128, lent.out as u128);
    let bad = (
        BAD_CANVAS,
        w > LIMIT || h > LIMIT || w == 0 && h > 0 || canvas < 4 * w * h,
    );
    let (_, tall) = after(operation, given);
    let too_tall = (TOO_TALL, tall > LIMIT);
    let room = (NO_ROOM, canvas < 4 * w * tall);
    let large = |width: u32| (TOO_LARGE, u128::from(width) > LIMIT);
    match *operation {
        Operation::New(width) => first(&[large(width)]),
        Operation::GetHeight => DONE,
        Operation::ExpandToHeight(height) => {
            let asked = (TOO_TALL, u128::from(height) > LIMIT);
            first(&[bad, asked, too_tall, room])
        }
        Operation::AddTopMargin(rows) => {
            let asked = (TOO_TALL, h + u128::from(rows) > LIMIT);
            first(&[bad, asked, too_tall, room])
        }
        Operation::ExpandToWidth(width) => {
            let wide = u128::from(width);
            let room = (NO_ROOM, wide > w && canvas < 4 * wide * h);
            first(&[bad, large(width), room])
        }
        Operation::SetWidth(width) => first(&[bad, large(width)]),
        Operation::Empty | Operation::Reset => first(&[bad]),
        Operation::Copy | Operation::Rotate(_) => first(&[bad, (NO_ROOM, out < 4 * w * h)]),
        Operation::ConsumeRgb => first(&[bad, (NO_ROOM, out < 3 * w * h)]),
        Operation::PutPixels {
            area, ref pixels, ..
        }
        | Operation::PutRenderImg {
            area, ref pixels, ..
        } => first(&put(
            bad,
            &area,
            pixels.len() as u128,
            given,
            too_tall,
            room,
        )),
        Operation::DrawRect { area, .. } | Operation::PutRect { area, .. } => {
            let bytes = 4 * u128::from(area.w) * u128::from(area.h);
            first(&put(bad, &area, bytes, given, too_tall, room))
        }
        Operation::FlipPixels(area) => {
            let empty = (EMPTY_AREA, area.w == 0 || area.h == 0);
            let off = (OFF_PAPER, u128::from(area.x) + u128::from(area.w) > w);
            first(&[bad, empty, off, too_tall, room])
        }
    }
}

/// The height that a record says, sound or not: with no width there is none.
pub fn height(given: &Record) -> u32 {
    if given.width == 0 {
        0
    } else {
        given.height
    }
}

/// The tests of a put of so many bytes.
fn put(
    bad: Test,
    area: &Area,
    bytes: u128,
    given: &Record,
    too_tall: Test,
    room: Test,
) -> [Test; 8] {
    let (w, h) = (u128::from(area.w), u128::from(area.h));
    let (n, rest) = (bytes / 4, bytes % 4);
    let below = !given.auto_grow && area.y >= given.height;
    let (cut_w, cut_h) = cropped(area, given);
    let short = is_cropping(area, given) && cut_h > 0 && (cut_h - 1) * w + cut_w > n;
    [
        bad,
        (WRONG_LENGTH, rest != 0),
        (TOO_LARGE, w > LIMIT || h > LIMIT),
        (TOO_MANY, n > w * h),
        (OFF_PAPER, area.x >= given.width || below),
        (SHORT, short),
        too_tall,
        room,
    ]
}

/// The second test is of the width, as in the original.
fn is_cropping(area: &Area, given: &Record) -> bool {
    let (x, y, w) = (u128::from(area.x), u128::from(area.y), u128::from(area.w));
    x + w > u128::from(given.width) || !given.auto_grow && y + w > u128::from(given.height)
}

/// The width and height that are put, of an area that begins on the paper.
pub fn cropped(area: &Area, given: &Record) -> (u128, u128) {
    let (w, h) = (u128::from(area.w), u128::from(area.h));
    if !is_cropping(area, given) {
        return (w, h);
    }
    let wide = u128::from(given.width.saturating_sub(area.x));
    let tall = u128::from(given.height.saturating_sub(area.y));
    let cut_h = if given.auto_grow { h } else { h.min(tall) };
    (w.min(wide), cut_h)
}

/// Width and height of the next canvas, where the operation is done.
pub fn after(operation: &Operation, given: &Record) -> (u128, u128) {
    let (w, h) = (u128::from(given.width), u128::from(given.height));
    // With no width there is no height.
    let of = |wide: u128, tall: u128| if wide == 0 { (0, 0) } else { (wide, tall) };
    let put = |area: &Area| h.max(u128::from(area.y) + cropped(area, given).1);
    let end = |area: &Area| u128::from(area.y) + u128::from(area.h);
    match *operation {
        Operation::New(width) | Operation::SetWidth(width) => (u128::from(width), 0),
        Operation::GetHeight | Operation::Copy => (w, h),
        Operation::ExpandToHeight(height) => (w, of(w, h.max(u128::from(height))).1),
        Operation::AddTopMargin(rows) => (w, of(w, h + u128::from(rows)).1),
        Operation::ExpandToWidth(width) => (w.max(u128::from(width)), h),
        Operation::Empty | Operation::Reset => (w, 0),
        Operation::ConsumeRgb => (0, 0),
        Operation::Rotate(Turn::By180) => (w, h),
        Operation::Rotate(Turn::By90 | Turn::By270) => of(h, w),
        Operation::PutPixels { ref area, .. }
        | Operation::DrawRect { ref area, .. }
        | Operation::PutRect { ref area, .. } => (w, put(area)),
        Operation::PutRenderImg {
            ref area,
            upside_down,
            ..
        } => {
            let flips = upside_down && is_flipped(area, given);
            (
                w,
                if flips {
                    put(area).max(end(area))
                } else {
                    put(area)
                },
            )
        }
        Operation::FlipPixels(ref area) => (w, h.max(end(area))),
    }
}

/// Whether an upside-down image is flipped after it is put: it has an area, and lies on the paper.
fn is_flipped(area: &Area, given: &Record) -> bool {
    area.w > 0 && area.h > 0 && u128::from(area.x) + u128::from(area.w) <= u128::from(given.width)
}

/// The number due for a border in a buffer of `lent` bytes.
pub fn border_due(width: u32, height: u32, lent: usize) -> u8 {
    let (w, h) = (u128::from(width), u128::from(height));
    first(&[
        (TOO_LARGE, w > LIMIT || h > LIMIT),
        (EMPTY_AREA, w == 0 || h == 0),
        (NO_ROOM, (lent as u128) < 4 * w * h),
    ])
}

#[cfg(test)]
mod tests {
    use super::{border_due, due, Area, Lent, Operation, Record, Turn};

    fn canvas(width: u32, height: u32, auto_grow: bool) -> Record {
        Record {
            width,
            height,
            auto_grow,
            paper_color: 0,
        }
    }

    fn number(operation: Operation, given: Record, lent: usize) -> u8 {
        let lent = Lent {
            canvas: lent,
            out: lent,
        };
        due(&operation, &given, lent)
    }

    fn put(given: Record, (x, y, w, h): (u32, u32, u32, u32), pixels: usize) -> u8 {
        let put = Operation::PutPixels {
            area: Area { x, y, w, h },
            pixels: vec![0; 4 * pixels],
            multiply: false,
        };
        number(put, given, 1 << 20)
    }

    fn flip(given: Record, (x, y, w, h): (u32, u32, u32, u32)) -> u8 {
        number(Operation::FlipPixels(Area { x, y, w, h }), given, 1 << 20)
    }

    #[test]
    fn the_scopes_examples() {
        let new = |width| number(Operation::New(width), canvas(0, 0, false), 0);
        assert_eq!((new(16_384), new(16_385)), (0, 2));
        let ten = canvas(10, 0, true);
        assert_eq!(put(ten, (0, 7, 0, 0), 0), 0);
        assert_eq!(put(ten, (9, 0, 1, 1), 1), 0);
        assert_eq!(put(ten, (10, 0, 1, 1), 1), 5);
    }

    #[test]
    fn a_limit_has_another_number_in_another_place() {
        let ten = canvas(10, 0, true);
        assert_eq!(put(ten, (0, 0, 16_385, 0), 0), 2);
        assert_eq!(flip(ten, (0, 0, 1, 20_000)), 8);
        assert_eq!(flip(ten, (0, 0, 20_000, 1)), 5);
        let grow = |height, given| number(Operation::ExpandToHeight(height), given, 1 << 20);
        assert_eq!((grow(16_384, ten), grow(16_385, ten)), (0, 8));
        assert_eq!(grow(16_385, canvas(0, 0, true)), 8);
        assert_eq!(grow(0, canvas(16_385, 0, true)), 9);
        assert_eq!(grow(0, canvas(0, 1, true)), 9);
        let margin = |rows| number(Operation::AddTopMargin(rows), canvas(0, 0, true), 0);
        assert_eq!((margin(16_384), margin(16_385)), (0, 8));
    }

    #[test]
    fn a_crop_may_cut_nothing() {
        assert_eq!(put(canvas(10, 3, false), (0, 0, 4, 1), 3), 7);
        assert_eq!(put(canvas(10, 4, false), (0, 0, 4, 1), 3), 0);
    }

    #[test]
    fn growth_off_and_flips() {
        let still = canvas(2, 2, false);
        assert_eq!(put(still, (0, 2, 1, 1), 1), 5);
        assert_eq!(flip(still, (0, 2, 1, 1)), 0);
        let image = |x, lent| {
            let area = Area {
                x,
                y: 1,
                w: 2,
                h: 2,
            };
            let image = Operation::PutRenderImg {
                area,
                pixels: vec![0; 16],
                upside_down: true,
            };
            number(image, still, lent)
        };
        // Flipped, it takes a third row.
        assert_eq!((image(0, 24), image(0, 23)), (0, 1));
        // Beside the paper it is only put.
        assert_eq!(image(1, 16), 0);
    }

    #[test]
    fn room() {
        let t = canvas(3, 2, true);
        for (operation, need) in [
            (Operation::Copy, 24),
            (Operation::Rotate(Turn::By90), 24),
            (Operation::ExpandToHeight(3), 36),
            (Operation::AddTopMargin(1), 36),
            (Operation::ExpandToWidth(4), 32),
            (Operation::ExpandToWidth(2), 24),
        ] {
            assert_eq!(number(operation.clone(), t, need), 0);
            assert_ne!(number(operation, t, need - 1), 0);
        }
        let rgb = |out| due(&Operation::ConsumeRgb, &t, Lent { canvas: 24, out });
        assert_eq!((rgb(18), rgb(17)), (0, 1));
        assert_eq!((border_due(3, 2, 24), border_due(3, 2, 23)), (0, 1));
        assert_eq!((border_due(0, 2, 0), border_due(0, 16_385, 0)), (10, 2));
    }
}
