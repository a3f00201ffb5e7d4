//! What both are asked, in a form that can be asked again alone, written down and made smaller.

use std::time::{Duration, Instant};

pub trait Question: Clone {
    /// How the answers differ, if they do.
    fn difference(&self) -> Option<String>;

    /// Smaller questions, those that leave out most first.
    fn smaller(&self) -> Box<dyn Iterator<Item = Self> + '_>;

    /// The text that `replay` reads.
    fn text(&self) -> String;
}

/// No smaller question is looked for after so long.
const PATIENCE: Duration = Duration::from_secs(20);

/// The smallest question found whose answers differ, from one whose answers do.
pub fn smallest<Q: Question>(mut question: Q) -> Q {
    let end = Instant::now() + PATIENCE;
    loop {
        let mut smaller = question.smaller().take_while(|_| Instant::now() < end);
        let Some(next) = smaller.find(|q| q.difference().is_some()) else {
            drop(smaller);
            return question;
        };
        drop(smaller);
        question = next;
    }
}

/// The question with another value in one place, for each of the values.
pub fn vary<'a, Q: Question, T>(
    question: &'a Q,
    values: impl Iterator<Item = T> + 'a,
    set: impl Fn(&mut Q, T) + 'a,
) -> Box<dyn Iterator<Item = Q> + 'a> {
    Box::new(values.map(move |value| {
        let mut other = question.clone();
        set(&mut other, value);
        other
    }))
}

/// Numbers below a number.
pub fn below<T: TryFrom<u64>>(n: impl TryInto<u64>) -> impl Iterator<Item = T> {
    let n = n.try_into().unwrap_or(u64::MAX);
    let candidates = [0, 1, n / 2, n.saturating_sub(1)];
    let distinct = (0..4).filter(move |&i| !candidates[..i].contains(&candidates[i]));
    let smaller = distinct.map(move |i| candidates[i]).filter(move |&m| m < n);
    smaller.filter_map(|m| T::try_from(m).ok())
}

/// Colours with fewer bytes that are not 0.
pub fn plainer(color: u32) -> impl Iterator<Item = u32> {
    let masks = [0, 0xff00_0000, 0x00ff_ffff, !0xff, !0xff00, !0x00ff_0000];
    let plainer = masks.into_iter().map(move |mask| color & mask);
    plainer.filter(move |&other| other != color)
}

/// Parts of a list, as first places and lengths: the halves, the quarters and so on to single ones.
pub fn parts(length: usize) -> impl Iterator<Item = (usize, usize)> {
    let sizes = std::iter::successors(Some(length), |&size| (size > 1).then_some(size.div_ceil(2)));
    sizes
        .filter(|&size| size > 0)
        .flat_map(move |size| (0..length).step_by(size).map(move |from| (from, size)))
        .map(move |(from, size)| (from, size.min(length - from)))
}

/// The bytes with a part of them 0 that is not.
pub fn blanker(bytes: &[u8]) -> impl Iterator<Item = Vec<u8>> + '_ {
    let parts = parts(bytes.len()).take(200);
    let marked = parts.filter(|&(from, size)| bytes[from..from + size].iter().any(|&b| b != 0));
    marked.map(|(from, size)| {
        let mut blanker = bytes.to_vec();
        blanker[from..from + size].fill(0);
        blanker
    })
}

#[cfg(test)]
mod tests {
    use super::{below, blanker, parts, smallest, vary, Question};

    /// Differs where the two add up to at least 100.
    #[derive(Clone)]
    struct Sum(u32, u32);

    impl Question for Sum {
        fn difference(&self) -> Option<String> {
            (self.0 + self.1 >= 100).then(|| "too much".into())
        }

        fn smaller(&self) -> Box<dyn Iterator<Item = Self> + '_> {
            let first = vary(self, below(self.0), |q, n| q.0 = n);
            Box::new(first.chain(vary(self, below(self.1), |q, n| q.1 = n)))
        }

        fn text(&self) -> String {
            format!("{} {}", self.0, self.1)
        }
    }

    #[test]
    fn nothing_smaller_differs() {
        assert_eq!(smallest(Sum(70, 700)).text(), "0 100");
        assert_eq!(smallest(Sum(700, 70)).text(), "30 70");
    }

    #[test]
    fn smaller_values() {
        assert_eq!(below::<u8>(9u8).collect::<Vec<_>>(), [0, 1, 4, 8]);
        assert_eq!(below::<u8>(2u8).collect::<Vec<_>>(), [0, 1]);
        assert_eq!(below::<u8>(0u8).count(), 0);
        let three = [(0, 3), (0, 2), (2, 1), (0, 1), (1, 1), (2, 1)];
        assert_eq!(parts(3).collect::<Vec<_>>(), three);
        assert_eq!(parts(0).count(), 0);
        let blanker: Vec<_> = blanker(&[0, 5]).collect();
        assert_eq!(blanker, [[0, 0], [0, 0]]);
    }
}
