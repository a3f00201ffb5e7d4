//! The text of a history: a line for each step.

use super::history::History;
use super::pair::is_damaged;
use crate::words::{bytes, Words};
use oracle::canvas::cases::{Case, Step};
use oracle::canvas::{Area, Operation, Record, Turn};
use oracle::colour::hex;
use oracle::rules::canvas::Lent;

pub fn write(history: &History) -> String {
    let [canvas, out] = history.shifts;
    let head = format!("canvas capacity {} shifts {canvas} {out}", history.capacity);
    let lines = std::iter::once(head).chain(history.steps.iter().map(step));
    lines.map(|line| line + "\n").collect()
}

fn step(step: &Step) -> String {
    match step {
        Step::Growth(true) => "growth on".into(),
        Step::Growth(false) => "growth off".into(),
        Step::Paper(color) => format!("paper {}", hex(*color)),
        Step::Dots(dots) => format!("dots {}", bytes(dots)),
        Step::Call(case) => format!(
            "call {} lent {} {} record {}",
            operation(&case.operation),
            case.lent.canvas,
            case.lent.out,
            record(&case.given)
        ),
    }
}

/// The canvas's own record, or a damaged one.
fn record(record: &Record) -> String {
    if !is_damaged(record) {
        return "own".into();
    }
    let Record {
        width,
        height,
        auto_grow,
        paper_color,
    } = *record;
    let growth = if auto_grow { "on" } else { "off" };
    format!("damaged {width} {height} {growth} {}", hex(paper_color))
}

fn operation(operation: &Operation) -> String {
    let name = match operation {
        Operation::PutRenderImg { .. } => "put_render_img",
        _ => operation.name(),
    };
    let area = operation.area().map_or(String::new(), |area| {
        let Area { x, y, w, h } = area;
        format!(" {x} {y} {w} {h}")
    });
    let rest = match operation {
        Operation::New(n)
        | Operation::ExpandToHeight(n)
        | Operation::ExpandToWidth(n)
        | Operation::AddTopMargin(n)
        | Operation::SetWidth(n) => format!(" {n}"),
        Operation::PutPixels {
            pixels, multiply, ..
        } => format!(" {} {}", mode(*multiply), bytes(pixels)),
        Operation::DrawRect {
            color, multiply, ..
        } => format!(" {} {}", mode(*multiply), hex(*color)),
        Operation::PutRect { color, .. } => format!(" {}", hex(*color)),
        Operation::PutRenderImg {
            pixels,
            upside_down,
            ..
        } => {
            let way = if *upside_down {
                "upside_down"
            } else {
                "upright"
            };
            format!(" {way} {}", bytes(pixels))
        }
        _ => String::new(),
    };
    format!("{name}{area}{rest}")
}

fn mode(multiply: bool) -> &'static str {
    if multiply {
        "multiply"
    } else {
        "blend"
    }
}

pub fn read(words: &mut Words) -> Result<History, String> {
    let capacity = words.past("capacity")?.number()?;
    let shifts = [words.past("shifts")?.number()?, words.number()?];
    let mut steps = Vec::new();
    while let Some(word) = words.more() {
        steps.push(match word {
            "growth" => Step::Growth(words.either("on", "off")?),
            "paper" => Step::Paper(words.color()?),
            "dots" => Step::Dots(words.bytes()?),
            "call" => Step::Call(read_case(words, capacity)?),
            _ => return Err(format!("'{word}' is no step")),
        });
    }
    Ok(History {
        capacity,
        shifts,
        steps,
    })
}

fn read_case(words: &mut Words, capacity: usize) -> Result<Case, String> {
    let operation = read_operation(words)?;
    let lent = Lent {
        canvas: words.past("lent")?.number()?,
        out: words.number()?,
    };
    if lent.canvas.max(lent.out) > capacity {
        return Err("more is lent than there is".into());
    }
    let given = if words.past("record")?.either("damaged", "own")? {
        read_record(words)?
    } else {
        Record {
            width: 0,
            height: 0,
            auto_grow: true,
            paper_color: 0,
        }
    };
    Ok(Case {
        operation,
        given,
        lent,
    })
}

fn read_record(words: &mut Words) -> Result<Record, String> {
    Ok(Record {
        width: words.number()?,
        height: words.number()?,
        auto_grow: words.either("on", "off")?,
        paper_color: words.color()?,
    })
}

fn read_operation(words: &mut Words) -> Result<Operation, String> {
    Ok(match words.word()? {
        "new" => Operation::New(words.number()?),
        "get_height" => Operation::GetHeight,
        "expand_to_height" => Operation::ExpandToHeight(words.number()?),
        "expand_to_width" => Operation::ExpandToWidth(words.number()?),
        "add_top_margin" => Operation::AddTopMargin(words.number()?),
        "set_width" => Operation::SetWidth(words.number()?),
        "empty" => Operation::Empty,
        "reset" => Operation::Reset,
        "copy" => Operation::Copy,
        "consume_rgb_u8" => Operation::ConsumeRgb,
        "rotate_90" => Operation::Rotate(Turn::By90),
        "rotate_180" => Operation::Rotate(Turn::By180),
        "rotate_270" => Operation::Rotate(Turn::By270),
        "put_pixels" => Operation::PutPixels {
            area: read_area(words)?,
            multiply: words.either("multiply", "blend")?,
            pixels: words.bytes()?,
        },
        "draw_rect" => Operation::DrawRect {
            area: read_area(words)?,
            multiply: words.either("multiply", "blend")?,
            color: words.color()?,
        },
        "put_rect" => Operation::PutRect {
            area: read_area(words)?,
            color: words.color()?,
        },
        "put_render_img" => Operation::PutRenderImg {
            area: read_area(words)?,
            upside_down: words.either("upside_down", "upright")?,
            pixels: words.bytes()?,
        },
        "flip_pixels" => Operation::FlipPixels(read_area(words)?),
        word => return Err(format!("'{word}' is no operation")),
    })
}

fn read_area(words: &mut Words) -> Result<Area, String> {
    Ok(Area {
        x: words.number()?,
        y: words.number()?,
        w: words.number()?,
        h: words.number()?,
    })
}

#[cfg(test)]
mod tests {
    use super::super::CLASSES;
    use super::{read, write, History};
    use crate::words::Words;
    use oracle::canvas::cases::Step;
    use oracle::canvas::Record;
    use oracle::random::Random;

    #[test]
    fn what_is_written_is_read() {
        let mut random = Random::new(1);
        let (_, class) = &CLASSES[0];
        let record = Record {
            width: 5,
            height: 3,
            auto_grow: true,
            paper_color: 0x0403_0201,
        };
        let first = Step::Call(class.new_canvas(&mut random));
        let others = (0..1000).map(|_| class.step(&record, &mut random));
        let history = History {
            capacity: class.capacity,
            shifts: [3, 15],
            steps: std::iter::once(first).chain(others).collect(),
        };
        let text = write(&history);
        let mut words = Words::new(text.strip_prefix("canvas").unwrap());
        assert_eq!(write(&read(&mut words).unwrap()), text);
    }
}
