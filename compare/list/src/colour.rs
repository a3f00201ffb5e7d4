//! Answers about colours.

use oracle::colour::{self, hex};
use oracle::random::Random;

/// Bytes where a rule may go wrong first.
const EDGES: [u8; 6] = [0, 1, 127, 128, 254, 255];

/// Lines of each operation on a dot, and of `with_alpha`.
const DOT_LINES: usize = 576;
const ALPHA_LINES: usize = 64;

pub fn write() {
    let mut random = Random::new(1);
    numbers();
    alphas(&mut random);

    let blends = [(255, 0, 128), (0, 255, 128), (10, 20, 100)];
    for input in inputs(&blends, blend_is_near_half, &mut random) {
        let color = input.color(input.alpha);
        line(
            'b',
            input.dot,
            color,
            0,
            colour::blend_foreground(input.dot, color),
        );
    }
    for input in inputs(&blends, blend_is_near_half, &mut random) {
        let color = input.color(!input.alpha);
        let answer = colour::blend_foreground_with_alpha(input.dot, color, input.alpha);
        line('w', input.dot, color, input.alpha, answer);
    }
    // The last three are the same values, at which the order of the six operations in f32 shows.
    let multiplies = [
        (200, 100, 255),
        (255, 255, 1),
        (128, 254, 1),
        (142, 208, 142),
        (142, 142, 208),
        (208, 142, 142),
    ];
    for input in inputs(&multiplies, multiply_is_near_half, &mut random) {
        let color = input.color(input.alpha);
        line(
            'm',
            input.dot,
            color,
            0,
            colour::multiply_foreground(input.dot, color),
        );
    }
}

fn numbers() {
    let colors = [0x01020304u32, 0x11121314, 0x21222324, 0x31323334].map(u32::swap_bytes);
    for number in 0..=255 {
        line('n', 0, 0, number, colour::color_for_number(colors, number));
    }
}

fn alphas(random: &mut Random) {
    let mut inputs = vec![([10, 20, 30, 255], 7)];
    for alpha in EDGES {
        inputs.push(([random.u8(), random.u8(), random.u8(), random.u8()], alpha));
    }
    inputs.resize_with(ALPHA_LINES, || (random.u32().to_le_bytes(), random.u8()));
    for (dot, alpha) in inputs {
        let dot = u32::from_le_bytes(dot);
        line('a', dot, 0, alpha, colour::with_alpha(dot, alpha));
    }
}

/// What a line asks: r, g and b of the colour onto the dot, at an alpha.
struct Input {
    dot: u32,
    channels: [u8; 3],
    alpha: u8,
}

impl Input {
    /// Three pairs of an old and a new value, for r, g and b.
    fn new(pairs: [(u8, u8); 3], alpha: u8, own: u8) -> Self {
        let [(s0, c0), (s1, c1), (s2, c2)] = pairs;
        Input {
            dot: u32::from_le_bytes([s0, s1, s2, own]),
            channels: [c0, c1, c2],
            alpha,
        }
    }

    fn color(&self, alpha: u8) -> u32 {
        let [r, g, b] = self.channels;
        u32::from_le_bytes([r, g, b, alpha])
    }
}

/// The examples, all edges with each other, for each alpha three pairs whose exact result lies
/// nearest a half, and then a sample.
fn inputs(
    examples: &[(u8, u8, u8)],
    near_half: fn(u32, u32, u32) -> bool,
    random: &mut Random,
) -> Vec<Input> {
    let mut inputs = Vec::new();
    for &(s, c, alpha) in examples {
        inputs.push(Input::new([(s, c), (s, c), (s, c)], alpha, 255));
    }
    for alpha in EDGES {
        for i in (0..36).step_by(3) {
            let pair = |i: usize| (EDGES[i / 6 % 6], EDGES[i % 6]);
            let pairs = [pair(i), pair(i + 13), pair(i + 26)];
            inputs.push(Input::new(pairs, alpha, EDGES[i / 3 % 6]));
        }
    }
    for alpha in 1..=255 {
        let pairs: Vec<(u8, u8)> = (0..=255)
            .flat_map(|s| (0..=255).map(move |c| (s, c)))
            .filter(|&(s, c)| near_half(s.into(), c.into(), alpha.into()))
            .collect();
        if !pairs.is_empty() {
            let pairs = [0; 3].map(|_| random.one_of(&pairs));
            inputs.push(Input::new(pairs, alpha, random.u8()));
        }
    }
    inputs.resize_with(DOT_LINES, || {
        let pairs = [0; 3].map(|_| (byte(random), byte(random)));
        Input::new(pairs, byte(random), byte(random))
    });
    inputs
}

fn byte(random: &mut Random) -> u8 {
    if random.below(4) == 0 {
        random.one_of(&EDGES)
    } else {
        random.u8()
    }
}

/// The sum that is divided by 255 lies next to a half of it.
fn blend_is_near_half(s: u32, c: u32, a: u32) -> bool {
    matches!((c * a + s * (255 - a)) % 255, 127 | 128)
}

/// Two whole numbers r have |130050·r − 2·s·c·a| ≤ 65041.
fn multiply_is_near_half(s: u32, c: u32, a: u32) -> bool {
    (65009..=65041).contains(&(2 * s * c * a % 130050))
}

fn line(kind: char, dot: u32, color: u32, extra: u8, answer: Option<u32>) {
    let answer = answer.expect("the original answers for every colour");
    println!(
        "{kind} {} {} {extra:02x} {}",
        hex(dot),
        hex(color),
        hex(answer)
    );
}
