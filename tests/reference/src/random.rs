//! Numbers that look random and return with the same seed (xorshift, 64 bits).

/// The generator's state, never 0.
pub struct Random {
    state: u64,
}

impl Random {
    /// A generator that begins from `seed`.
    pub fn new(seed: u64) -> Random {
        // Seeds that differ in a low bit shall begin far apart, and never at 0.
        let state = seed.wrapping_mul(0x9E37_79B9_7F4A_7C15) ^ 0x2545_F491_4F6C_DD1D;
        Random { state: state.max(1) }
    }

    /// The next 64 bits.
    pub fn bits(&mut self) -> u64 {
        self.state ^= self.state << 13;
        self.state ^= self.state >> 7;
        self.state ^= self.state << 17;
        self.state
    }

    /// A number in 0..bound.
    pub fn below(&mut self, bound: u64) -> u64 {
        ((u128::from(self.bits()) * u128::from(bound)) >> 64) as u64
    }

    /// A number in −size..=size.
    pub fn within(&mut self, size: i32) -> i32 {
        (self.below(2 * size as u64 + 1) as i64 - i64::from(size)) as i32
    }
}
