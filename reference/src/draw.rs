//! Seeded numbers: Marsaglia's xorshift with 64 bits of state.

pub struct Draw(u64);

impl Draw {
    /// Every seed will do: it is scrambled first, and the state 0, in which
    /// xorshift would stay, is replaced.
    pub fn new(seed: u64) -> Draw {
        let scrambled = (seed ^ (seed >> 31)).wrapping_mul(0x9e37_79b9_7f4a_7c15);
        Draw(scrambled.max(1))
    }

    fn next(&mut self) -> u64 {
        self.0 ^= self.0 << 13;
        self.0 ^= self.0 >> 7;
        self.0 ^= self.0 << 17;
        self.0
    }

    /// A number from 0 up to but not including `bound`.
    pub fn below(&mut self, bound: usize) -> usize {
        (self.next() >> 16) as usize % bound
    }

    pub fn one_in(&mut self, bound: usize) -> bool {
        self.below(bound) == 0
    }

    pub fn pick<T: Copy>(&mut self, from: &[T]) -> T {
        from[self.below(from.len())]
    }
}
