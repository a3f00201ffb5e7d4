//! The damaged mark of the incident, put to the original and to this library: decoded, drawn on
//! paper as wide as it says, and taken from there as a picture.

use oracle::canvas::Canvas;
use oracle::decoders::{command, Input, Kind};
use oracle::stops::answer_or_stop;
use oracle::thermal_parser::graphics::GraphicsCommand;
use thermal::{image_from_raster_bytes_single_color, Rgba, Sizes};

const WIDTH: u32 = 512;
const HEIGHT: u32 = 8_388_608;

/// What the three steps give.
struct Outcome {
    decoding: String,
    drawing: String,
    picture: String,
}

impl Outcome {
    /// It went no further than decoding.
    fn ended(decoding: String) -> Self {
        Outcome {
            decoding,
            drawing: "not reached".into(),
            picture: "none".into(),
        }
    }
}

/// Prints a line for each step, what the original gives and what this library gives, with tabs
/// between them.
pub fn show() {
    let (rust, ours) = (original(), library());
    println!("decoding\t{}\t{}", rust.decoding, ours.decoding);
    println!("drawing\t{}\t{}", rust.drawing, ours.drawing);
    println!("picture\t{}\t{}", rust.picture, ours.picture);
}

fn original() -> Outcome {
    let mark = Input {
        kind: Kind::RasterBits,
        width: WIDTH,
        height: HEIGHT,
        stretch: (1, 1),
        num_colors: 0,
        colors: [0; 4],
        data: Vec::new(),
    };
    let image = match answer_or_stop(|| command(&mark)) {
        Err(why) => return Outcome::ended(format!("stops: {why}")),
        Ok(GraphicsCommand::Image(image)) => image,
        Ok(other) => return Outcome::ended(format!("{other:?}")),
    };
    let mut canvas = Canvas::new(WIDTH);
    let drawn = answer_or_stop(|| canvas.0.put_render_img(&image));
    let (w, h, rgb) = canvas.0.consume_rgb_u8();
    Outcome {
        decoding: format!(
            "success: {} by {}, {} pixels",
            image.w,
            image.h,
            image.pixels.len()
        ),
        drawing: match drawn {
            Err(why) => format!("stops: {why}"),
            Ok(()) if canvas.0.errors.is_empty() => "success: no error".into(),
            Ok(()) => format!("errors: {:?}", canvas.0.errors),
        },
        picture: picture(w, h, &rgb),
    }
}

fn library() -> Outcome {
    let mark =
        image_from_raster_bytes_single_color(Sizes::new(WIDTH, HEIGHT), Rgba::BLACK, &[], true);
    let image = match mark {
        Err(why) => return Outcome::ended(format!("refused: {} {}", why.number(), why.name())),
        Ok(image) => image,
    };
    let mut canvas = thermal::Canvas::new(WIDTH).expect("the paper is within the limit");
    let drawn = canvas.put_render_img(0, 0, &image, false);
    let (w, h, rgb) = canvas.consume_rgb_u8();
    Outcome {
        decoding: format!("success: {} by {}", image.w, image.h),
        drawing: format!("{drawn:?}"),
        picture: picture(w, h, &rgb),
    }
}

fn picture(w: u32, h: u32, rgb: &[u8]) -> String {
    let bare = rgb.iter().all(|&byte| byte == 255);
    let what = if bare { ": bare paper" } else { "" };
    format!("{w} by {h}{what}")
}
