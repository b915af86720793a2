//! A buffer that is lent to the library, with guard bytes on both sides, and what all of it has to hold afterwards.

use crate::random::Random;

const GUARD: usize = 32;

#[derive(Default)]
pub struct Buffer {
    held: Vec<u8>,
    expected: Vec<u8>,
    start: usize,
    length: usize,
}

impl Buffer {
    /// Random bytes, guards included, at any alignment.
    pub fn lay(&mut self, random: &mut Random, length: usize) {
        self.start = GUARD + random.below(16);
        self.length = length;
        self.held.resize(self.start + length + GUARD, 0);
        random.fill(&mut self.held);
        self.expected.clone_from(&self.held);
    }

    /// A buffer of this length that starts with the given bytes, as far as they fit.
    pub fn lay_bytes(&mut self, random: &mut Random, bytes: &[u8], length: usize) {
        self.lay(random, length);
        let bytes = &bytes[..bytes.len().min(length)];
        self.lent()[..bytes.len()].copy_from_slice(bytes);
        self.expect(Some(bytes));
    }

    pub fn lent(&mut self) -> &mut [u8] {
        &mut self.held[self.start..self.start + self.length]
    }

    /// The library has to leave these bytes at the front, or nothing changed.
    pub fn expect(&mut self, bytes: Option<&[u8]>) {
        let bytes = bytes.unwrap_or_default();
        self.expected[self.start..][..bytes.len()].copy_from_slice(bytes);
    }

    /// The first byte that is not as expected.
    pub fn difference(&self, name: &str) -> Option<String> {
        if self.held == self.expected {
            return None;
        }
        let place = self.held.iter().zip(&self.expected).position(|(held, expected)| held != expected)?;
        let (held, expected) = (self.held[place], self.expected[place]);
        let from_start = place as isize - self.start as isize;
        Some(format!("byte {from_start} of the {name} buffer of {} bytes is {held}, expected {expected}", self.length))
    }
}
