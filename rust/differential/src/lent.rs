//! Buffers to lend, with bytes around them that nobody may touch.

use crate::random::Random;

/// Guard bytes on either side.
const MARGIN: usize = 16;

/// A buffer full of bytes that are not zero, inside a larger one, so that a write
/// past its end, a byte wrongly kept and a byte wrongly cleared all show.
#[derive(Clone, PartialEq, Eq)]
pub struct Lent {
    whole: Vec<u8>,
}

impl Lent {
    /// A buffer of this size.
    pub fn new(random: &mut Random, size: usize) -> Lent {
        let salt = random.upto(126) as u8;
        let byte = |index: usize| 1 + (index as u8 ^ salt) % 255;
        Lent {
            whole: (0..size + 2 * MARGIN).map(byte).collect(),
        }
    }

    /// The part that is lent.
    pub fn part(&mut self) -> &mut [u8] {
        let end = self.whole.len() - MARGIN;
        &mut self.whole[MARGIN..end]
    }

    /// How many bytes are lent.
    pub fn size(&self) -> usize {
        self.whole.len() - 2 * MARGIN
    }

    /// The first byte in which two buffers differ, counted from the start of the
    /// lent part, with the two bytes.
    pub fn first_difference(&self, other: &Lent) -> Option<(isize, u8, u8)> {
        let pairs = self.whole.iter().zip(&other.whole);
        let at = pairs.clone().position(|(a, b)| a != b)?;
        Some((
            at as isize - MARGIN as isize,
            self.whole[at],
            other.whole[at],
        ))
    }
}

/// Sizes around the one needed: too short by one byte, just right, longer.
pub fn size_around(random: &mut Random, needed: usize) -> usize {
    match random.below(12) {
        0 => needed.saturating_sub(1),
        1 => random.upto(needed),
        2 => needed + 1,
        3 => needed + random.upto(40),
        4 => needed + 8,
        _ => needed,
    }
}
