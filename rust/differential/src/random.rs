//! A small seeded source of random numbers (SplitMix64).

/// Gives the same numbers for the same seed, on every machine.
#[derive(Clone, Debug)]
pub struct Random(u64);

impl Random {
    /// The source for one case of one area, so that each case can be had alone.
    pub fn of_case(seed: u64, area: u64, case: u64) -> Random {
        let mut random = Random(seed ^ area.rotate_left(48) ^ case);
        let mixed = random.next();
        Random(mixed)
    }

    fn next(&mut self) -> u64 {
        self.0 = self.0.wrapping_add(0x9E37_79B9_7F4A_7C15);
        let mut mixed = self.0;
        mixed = (mixed ^ (mixed >> 30)).wrapping_mul(0xBF58_476D_1CE4_E5B9);
        mixed = (mixed ^ (mixed >> 27)).wrapping_mul(0x94D0_49BB_1331_11EB);
        mixed ^ (mixed >> 31)
    }

    /// A number from 0 to one below `limit`.
    pub fn below(&mut self, limit: usize) -> usize {
        ((u128::from(self.next()) * limit as u128) >> 64) as usize
    }

    /// A number from 0 to `last`.
    pub fn upto(&mut self, last: usize) -> usize {
        self.below(last + 1)
    }

    /// True this many times in a hundred.
    pub fn percent(&mut self, times: usize) -> bool {
        self.below(100) < times
    }

    /// True once in so many.
    pub fn once_in(&mut self, many: usize) -> bool {
        self.below(many) == 0
    }

    /// One of these.
    pub fn one_of<T: Copy>(&mut self, choices: &[T]) -> T {
        choices[self.below(choices.len())]
    }

    /// Any byte.
    pub fn byte(&mut self) -> u8 {
        self.next() as u8
    }
}

#[cfg(test)]
mod tests {
    use super::Random;

    #[test]
    fn cases_repeat_and_differ() {
        let first = |case| Random::of_case(1, 2, case).below(1_000_000_007);
        assert_eq!(first(3), first(3));
        assert_ne!(first(3), first(4));
    }
}
