//! A call with one dot or colour.

use crate::library;
use crate::question::{below, plainer, vary, Question};
use crate::report::{Report, Verdict};
use crate::words::Words;
use oracle::colour::{self, hex};

#[derive(Clone, Copy, Debug, PartialEq, Eq)]
pub enum Function {
    WithAlpha,
    ColorForNumber,
    BlendWithAlpha,
    Blend,
    Multiply,
}

impl Function {
    const ALL: [Function; 5] = [
        Function::WithAlpha,
        Function::ColorForNumber,
        Function::BlendWithAlpha,
        Function::Blend,
        Function::Multiply,
    ];

    pub fn name(self) -> &'static str {
        match self {
            Function::WithAlpha => "with_alpha",
            Function::ColorForNumber => "color_for_number",
            Function::BlendWithAlpha => "blend_foreground_with_alpha",
            Function::Blend => "blend_foreground",
            Function::Multiply => "multiply_foreground",
        }
    }
}

/// The arguments of a function are the first of the colours, and the byte where it takes one.
#[derive(Clone, Copy)]
pub struct Call {
    pub function: Function,
    pub colors: [u32; 4],
    pub byte: u8,
}

impl Call {
    pub fn new(function: Function, [first, second]: [u32; 2], byte: u8) -> Self {
        Call {
            function,
            colors: [first, second, 0, 0],
            byte,
        }
    }

    /// The original's answer, or nothing where it stops.
    pub fn rust(&self) -> Option<u32> {
        let [first, second, ..] = self.colors;
        match self.function {
            Function::WithAlpha => colour::with_alpha(first, self.byte),
            Function::ColorForNumber => colour::color_for_number(self.colors, self.byte),
            Function::BlendWithAlpha => {
                colour::blend_foreground_with_alpha(first, second, self.byte)
            }
            Function::Blend => colour::blend_foreground(first, second),
            Function::Multiply => colour::multiply_foreground(first, second),
        }
    }

    fn ours(&self) -> u32 {
        let [first, second, ..] = self.colors;
        match self.function {
            Function::WithAlpha => library::with_alpha(first, self.byte),
            Function::ColorForNumber => library::color_for_number(self.colors, self.byte),
            Function::BlendWithAlpha => {
                library::blend_foreground_with_alpha(first, second, self.byte)
            }
            Function::Blend => library::blend_foreground(first, second),
            Function::Multiply => library::multiply_foreground(first, second),
        }
    }

    /// The original has an answer to every input: where it stops, that is a difference.
    pub fn difference_from(&self, rust: Option<u32>) -> Option<String> {
        let ours = self.ours();
        (rust != Some(ours)).then(|| answers(rust, ours))
    }
}

pub fn answers(rust: Option<u32>, ours: u32) -> String {
    let rust = rust.map_or("stops".into(), |rust| format!("gives {}", hex(rust)));
    format!("the Rust {rust}, this library gives {}", hex(ours))
}

pub fn compare(report: &mut Report, name: &str, calls: impl Iterator<Item = Call>) {
    let row = report.row(name);
    for call in calls {
        report.count(row, &Verdict::done(call.difference()), || call);
    }
}

impl Question for Call {
    fn difference(&self) -> Option<String> {
        self.difference_from(self.rust())
    }

    fn smaller(&self) -> Box<dyn Iterator<Item = Self> + '_> {
        let byte = vary(self, below(self.byte), |q, byte| q.byte = byte);
        let colors = (0..4).flat_map(|i| {
            let smaller = plainer(self.colors[i]);
            vary(self, smaller, move |q, color| q.colors[i] = color)
        });
        Box::new(byte.chain(colors))
    }

    fn text(&self) -> String {
        let colors = self.colors.map(hex).join(" ");
        format!(
            "colour {} {colors} byte {}\n",
            self.function.name(),
            self.byte
        )
    }
}

pub fn read(words: &mut Words) -> Result<Call, String> {
    let name = words.word()?;
    let function = Function::ALL.into_iter().find(|f| f.name() == name);
    let mut colors = [0; 4];
    for color in &mut colors {
        *color = words.color()?;
    }
    Ok(Call {
        function: function.ok_or(format!("'{name}' is no function"))?,
        colors,
        byte: words.past("byte")?.number()?,
    })
}
