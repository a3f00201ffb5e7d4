//! Holds the bindings to include/thermal.h: the numbers, the limit and the structs' sizes.

use std::mem::size_of;
use thermal::job::{Dropped, Entry, Plan, MOST_COMMANDS};
use thermal::lent::{Answer, Copied, Decoded, Ran, Rgb, RowAnswer, ThermalImage, Translated};
use thermal::{Canvas, Error, RenderColors, Rgba};

const HEADER: &str = include_str!("../../../include/thermal.h");

/// Each constant that the header defines, and its number.
fn constants() -> Vec<(&'static str, u32)> {
    let lines = HEADER.lines();
    lines
        .filter_map(|line| {
            let mut words = line.strip_prefix("#define THERMAL_")?.split_whitespace();
            Some((words.next()?, words.next()?.parse().ok()?))
        })
        .collect()
}

#[test]
fn numbers_and_names_are_the_headers() {
    let mut expected = vec![("LIMIT", Canvas::LIMIT), ("DONE", 0)];
    expected.extend(Error::ALL.map(|e| (e.name(), u32::from(e.number()))));
    expected.push(("MOST_COMMANDS", MOST_COMMANDS as u32));
    let entries = [
        ("RECTANGLE", Entry::RECTANGLE),
        ("IMAGE", Entry::IMAGE),
        ("BLEND", Entry::BLEND),
        ("MULTIPLY", Entry::MULTIPLY),
    ];
    expected.extend(entries.map(|(name, number)| (name, u32::from(number))));
    assert_eq!(constants(), expected);
}

#[test]
fn structs_are_as_large_as_the_headers() {
    let sizes = [
        size_of::<Rgba>(),
        size_of::<RenderColors>(),
        size_of::<ThermalImage>(),
        size_of::<Answer>(),
        size_of::<Copied>(),
        size_of::<Rgb>(),
        size_of::<Decoded>(),
        size_of::<Dropped>(),
        size_of::<Ran>(),
        size_of::<Entry>(),
        size_of::<Plan>(),
        size_of::<Translated>(),
        size_of::<RowAnswer>(),
    ];
    let expected = [4, 16, 16, 20, 12, 28, 12, 8, 544, 40, 3104, 3112, 8];
    assert_eq!(sizes, expected);
}
