//! A decoder's case asked alone: how it is made smaller, written and read.

use super::cases::{dots_length, Case};
use super::{judge, noise, BESIDE};
use crate::question::{below, blanker, parts, plainer, vary, Question};
use crate::words::{bytes, Words};
use oracle::colour::hex;
use oracle::decoders::{Input, Kind};
use oracle::random::Random;
use oracle::rules;

impl Question for Case {
    fn difference(&self) -> Option<String> {
        let length = self.shift + self.lent + 2 * BESIDE;
        judge(self, &noise(length, &mut Random::new(0))).difference
    }

    fn smaller(&self) -> Box<dyn Iterator<Item = Self> + '_> {
        let input = &self.input;
        let (x, y) = input.stretch;
        let sizes = [
            vary(self, below(input.width), |q, n| q.size(|i| i.width = n)),
            vary(self, below(input.height), |q, n| q.size(|i| i.height = n)),
            vary(self, below(x), |q, n| q.input.stretch.0 = n),
            vary(self, below(y), |q, n| q.input.stretch.1 = n),
            vary(self, below(input.num_colors), |q, n| {
                q.size(|i| i.num_colors = n)
            }),
        ];
        let need = (rules::due(input, usize::MAX) == rules::DONE).then(|| dots_length(input));
        let need = need.filter(|&need| need < self.lent);
        let lent = need.into_iter().chain(below(self.lent));
        let rest = [
            vary(self, lent, |q, n| q.lent = n),
            vary(self, below(self.shift), |q, n| q.shift = n),
            vary(self, parts(input.data.len()), |q, (from, size)| {
                q.input.data.drain(from..from + size);
            }),
            vary(self, blanker(&input.data), |q, data| q.input.data = data),
        ];
        let colors = (0..4).flat_map(move |i| {
            let smaller = plainer(input.colors[i]);
            vary(self, smaller, move |q, color| q.input.colors[i] = color)
        });
        Box::new(sizes.into_iter().chain(rest).flatten().chain(colors))
    }

    fn text(&self) -> String {
        let Input {
            kind,
            width,
            height,
            stretch: (x, y),
            num_colors,
            colors,
            ref data,
        } = self.input;
        format!(
            "decoder {}\nsizes {width} {height} stretch {x} {y} layers {num_colors}\n\
             colors {}\nlent {} shift {}\ndata {}\n",
            word(kind),
            colors.map(hex).join(" "),
            self.lent,
            self.shift,
            bytes(data)
        )
    }
}

impl Case {
    /// Changes a size. Data of the right length keeps it right.
    fn size(&mut self, change: impl Fn(&mut Input)) {
        let was_right = right_length(&self.input) == Some(self.input.data.len());
        change(&mut self.input);
        if let (true, Some(length)) = (was_right, right_length(&self.input)) {
            self.input.data.resize(length, 0);
        }
    }
}

/// The length that data has to have, where there is one and the sizes are within the limit.
fn right_length(input: &Input) -> Option<usize> {
    if rules::due(input, usize::MAX) == rules::TOO_LARGE {
        return None;
    }
    rules::data_length(input).map(|length| length as usize)
}

fn word(kind: Kind) -> &'static str {
    match kind {
        Kind::RasterBits => "raster_bits",
        Kind::RasterAlphas => "raster_alphas",
        Kind::Column => "column",
        Kind::LayerBits => "layer_bits",
        Kind::LayerAlphas => "layer_alphas",
    }
}

pub fn read(words: &mut Words) -> Result<Case, String> {
    let name = words.word()?;
    let kind = Kind::ALL.into_iter().find(|&kind| word(kind) == name);
    let kind = kind.ok_or(format!("'{name}' is no decoder"))?;
    let (width, height) = (words.past("sizes")?.number()?, words.number()?);
    let stretch = (words.past("stretch")?.number()?, words.number()?);
    let num_colors = words.past("layers")?.number()?;
    words.past("colors")?;
    let mut colors = [0; 4];
    for color in &mut colors {
        *color = words.color()?;
    }
    let (lent, shift) = (
        words.past("lent")?.number()?,
        words.past("shift")?.number()?,
    );
    let input = Input {
        kind,
        width,
        height,
        stretch,
        num_colors,
        colors,
        data: words.past("data")?.bytes()?,
    };
    Ok(Case { input, lent, shift })
}

#[cfg(test)]
mod tests {
    use super::super::cases::any;
    use super::{read, Kind, Question, Random, Words};

    #[test]
    fn what_is_written_is_read() {
        let mut random = Random::new(1);
        for kind in Kind::ALL {
            for _ in 0..100 {
                let text = any(kind, &mut random).text();
                let mut words = Words::new(text.strip_prefix("decoder").unwrap());
                assert_eq!(read(&mut words).unwrap().text(), text);
            }
        }
    }
}
