//! Memory of which a part is lent.

use oracle::colour::hex;
use oracle::random::Random;

/// Bytes before and after those that can be lent, but for the shift.
const BESIDE: usize = 32;

/// The largest shift is below this.
pub const SHIFTS: usize = 16;

pub struct Space {
    memory: Vec<u8>,
    /// What the memory has to hold.
    expected: Vec<u8>,
    start: usize,
}

impl Space {
    /// As many bytes can be lent as the capacity says. All hold noise.
    pub fn new(capacity: usize, random: &mut Random) -> Self {
        let mut memory = vec![0; capacity + 2 * BESIDE + SHIFTS];
        memory.fill_with(|| random.u8());
        Space {
            expected: memory.clone(),
            memory,
            start: BESIDE,
        }
    }

    /// The bytes that can be lent.
    pub fn capacity(&self) -> usize {
        self.memory.len() - 2 * BESIDE - SHIFTS
    }

    /// Moves the start, so that it lies at every alignment.
    pub fn shift(&mut self, by: usize) {
        self.start = BESIDE + by;
    }

    pub fn lend(&mut self, length: usize) -> &mut [u8] {
        &mut self.memory[self.start..][..length]
    }

    /// The first bytes as they have to be.
    pub fn first(&self, length: usize) -> &[u8] {
        &self.expected[self.start..][..length]
    }

    /// Has the first bytes be these after a call.
    pub fn expect(&mut self, bytes: &[u8]) {
        self.expected[self.start..][..bytes.len()].copy_from_slice(bytes);
    }

    /// Writes the first bytes.
    pub fn write(&mut self, bytes: &[u8]) {
        self.expect(bytes);
        self.lend(bytes.len()).copy_from_slice(bytes);
    }

    /// What is not as it has to be, of which `lent` bytes were lent. It is forgotten.
    pub fn difference(&mut self, name: &str, lent: usize) -> Option<String> {
        if self.memory == self.expected {
            return None;
        }
        let at = (0..self.memory.len()).find(|&i| self.memory[i] != self.expected[i]);
        let what = self.describe(at.unwrap(), lent);
        self.expected.copy_from_slice(&self.memory);
        Some(format!("in {name} {what}"))
    }

    fn describe(&self, at: usize, lent: usize) -> String {
        if at < self.start {
            return format!("the byte {} before the buffer changes", self.start - at);
        }
        let at = at - self.start;
        if at >= lent {
            return format!("the byte {} after the buffer changes", at - lent);
        }
        let dot = |bytes: &[u8]| {
            let four = &bytes[self.start + at / 4 * 4..][..4];
            hex(u32::from_le_bytes(four.try_into().unwrap()))
        };
        format!(
            "byte {at} differs: {} expected in dot {}, {} given",
            dot(&self.expected),
            at / 4,
            dot(&self.memory)
        )
    }
}
