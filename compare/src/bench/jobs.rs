//! Strips as they are printed. The original draws a job's commands one after the other; this library
//! runs the job, and works out the rows of its plan, all at once and each alone.

use super::{print, time, Row, ROUNDS};
use oracle::canvas::Area;
use oracle::decoders::command;
use oracle::job::{draw, Command, Job};
use oracle::random::Random;
use oracle::rules::job::outcome;
use oracle::thermal_parser::graphics::{GraphicsCommand, RGBA};
use oracle::thermal_renderer::image_renderer::thermal_image::ThermalImage;
use std::hint::black_box;
use thermal::lent;

const BLACK: u32 = 0xff00_0000;
const GREY: u32 = 0x8000_0000;

pub fn measure() {
    let mut random = Random::new(1);
    let strips = [
        ("a receipt with 20 images", receipt(&mut random)),
        ("a strip of 64 commands", long_strip(&mut random)),
        ("a page of stretched marks", page(&mut random)),
    ];
    for (i, (name, job)) in strips.iter().enumerate() {
        if i > 0 {
            println!();
        }
        strip(name, job);
    }
}

fn strip(name: &str, job: &Job) {
    let outcome = outcome(job);
    assert!(outcome.dropped.is_empty(), "{name}: a command is dropped");
    let bytes = job.bytes();
    let wide = 4 * job.width as usize;
    let mut buf = vec![0; wide * outcome.height as usize];
    let mut line = vec![0; wide];
    let mut rows = [
        Row::new("run"),
        Row::new("translation and all rows at once"),
        Row::new("translation and each row alone"),
    ];
    let mut clear = Vec::new();
    for round in 0..ROUNDS {
        // Neither the canvas nor the time to free it counts.
        let mut rust = None;
        let took = time(|| rust = Some(drawn(black_box(job))));
        rows.iter_mut().for_each(|row| row.rust.push(took));
        // The run and the rows find the buffer alike: just cleared.
        clear.push(time(|| black_box(&mut buf).fill(0)));
        let mut number = 0;
        rows[0].ours.push(time(|| {
            number = lent::run(black_box(&bytes), &mut buf).number;
        }));
        let ran = (round == 0).then(|| buf.clone());
        black_box(&mut buf).fill(0);
        rows[1].ours.push(time(|| {
            let plan = lent::translate(black_box(&bytes)).plan;
            number |= lent::rows(&plan, 0, plan.height, &bytes, &mut buf);
        }));
        rows[2].ours.push(time(|| {
            let plan = lent::translate(black_box(&bytes)).plan;
            for row in 0..plan.height {
                black_box(lent::row(&plan, row, &bytes, &mut line));
            }
        }));
        if let Some(ran) = ran {
            let rust = rust.unwrap().get_height();
            let expected = draw(job, &[]).map(|mut canvas| canvas.dots());
            assert!(
                number == 0
                    && rust == outcome.height
                    && expected.as_ref() == Ok(&ran)
                    && buf == ran,
                "{name}: the answers differ"
            );
        }
    }
    let sizes = format!("{name}, {} by {} dots", job.width, outcome.height);
    print(&sizes, rows, clear);
}

/// What the original draws of a job of which nothing is dropped.
fn drawn(job: &Job) -> ThermalImage {
    let mut canvas = ThermalImage::new(job.width);
    for one in &job.commands {
        match *one {
            Command::Rectangle {
                area: Area { x, y, w, h },
                color,
                multiply,
            } => canvas.draw_rect(x, y, w, h, &rgba(color), multiply),
            Command::Image { area, multiply, .. } => {
                let input = one.input().expect("it is an image");
                let GraphicsCommand::Image(image) = command(&input) else {
                    panic!("the Rust gives no image");
                };
                let (w, h) = (image.w, image.h);
                canvas.put_pixels(area.x, area.y, w, h, image.pixels, false, multiply);
            }
            Command::Margin(rows) => canvas.add_top_margin(rows),
            Command::Flip(Area { x, y, w, h }) => canvas.flip_pixels(x, y, w, h),
        }
    }
    canvas
}

fn rgba(color: u32) -> RGBA {
    let [r, g, b, a] = color.to_le_bytes();
    RGBA { r, g, b, a }
}

fn job(width: u32, commands: Vec<Command>) -> Job {
    Job {
        width,
        paper_color: 0xffff_ffff,
        commands,
    }
}

fn image(area: Area, stretch: u8, random: &mut Random) -> Command {
    let length = area.w.div_ceil(8) * area.h;
    Command::Image {
        area,
        stretch: (stretch, stretch),
        color: BLACK,
        multiply: true,
        data: (0..length).map(|_| random.u8()).collect(),
    }
}

fn rectangle(area: Area, color: u32) -> Command {
    Command::Rectangle {
        area,
        color,
        multiply: color == BLACK,
    }
}

fn area(x: u32, y: u32, w: u32, h: u32) -> Area {
    Area { x, y, w, h }
}

/// Lines of text as images, rules between some of them, a grey band and a margin.
fn receipt(random: &mut Random) -> Job {
    let mut commands = Vec::new();
    for i in 0..20 {
        commands.push(image(area(24, 64 * i, 336, 48), 1, random));
        if i % 4 == 3 {
            commands.push(rectangle(area(12, 64 * i + 54, 360, 2), BLACK));
        }
    }
    commands.push(rectangle(area(24, 1_200, 336, 48), GREY));
    commands.push(Command::Margin(64));
    job(384, commands)
}

/// Bands of images from edge to edge, with a grey one after each two, and four margins.
fn long_strip(random: &mut Random) -> Job {
    let mut commands = Vec::new();
    for i in 0..60 {
        let band = area(0, 130 * i, 576, 130);
        commands.push(match i % 3 {
            2 => rectangle(band, GREY),
            _ => image(band, 1, random),
        });
    }
    commands.extend([50; 4].map(Command::Margin));
    job(576, commands)
}

/// Three marks in a row, each dot a block of eight by eight.
fn page(random: &mut Random) -> Job {
    let mark = |i: u32| area(i % 3 * 192, i / 3 * 192, 24, 24);
    let commands = (0..60).map(|i| image(mark(i), 8, random));
    job(576, commands.collect())
}
