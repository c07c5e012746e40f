//! A small generator of numbers (xorshift64*): the same seed makes the same run.

/// The generator.
pub struct Xorshift(u64);

impl Xorshift {
    /// A generator from a seed.
    pub fn new(seed: u64) -> Xorshift {
        Xorshift(seed.wrapping_mul(0x9e37_79b9_7f4a_7c15) | 1)
    }

    fn step(&mut self) -> u64 {
        self.0 ^= self.0 >> 12;
        self.0 ^= self.0 << 25;
        self.0 ^= self.0 >> 27;
        self.0.wrapping_mul(0x2545_f491_4f6c_dd1d) >> 32
    }

    /// A number below `end`, which is above 0.
    pub fn below(&mut self, end: usize) -> usize {
        (self.step() as usize) % end
    }

    /// A number from `low` to `high`, both counted.
    pub fn within(&mut self, low: u16, high: u16) -> u16 {
        low + self.below(usize::from(high - low) + 1) as u16
    }

    /// True once in `times`, on average.
    pub fn once_in(&mut self, times: usize) -> bool {
        self.below(times) == 0
    }

    /// One of these.
    pub fn pick<T: Copy>(&mut self, from: &[T]) -> T {
        from[self.below(from.len())]
    }

    /// Any coordinate.
    pub fn coordinate(&mut self) -> u16 {
        self.within(0, u16::MAX)
    }

    /// A coordinate at most `step` metres from this one, inside the square.
    pub fn near(&mut self, from: u16, step: u16) -> u16 {
        self.within(from.saturating_sub(step), from.saturating_add(step))
    }
}
