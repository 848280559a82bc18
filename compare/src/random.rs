//! Random cases that a seed repeats.

/// Marsaglia's xorshift, its states multiplied once (Vigna's xorshift64*).
pub struct Random(u64);

impl Random {
    pub fn new(seed: u64) -> Self {
        // Zero is the one state that the shifts never leave.
        Self(if seed == 0 { u64::MAX } else { seed })
    }

    pub fn bits(&mut self) -> u64 {
        self.0 ^= self.0 << 13;
        self.0 ^= self.0 >> 7;
        self.0 ^= self.0 << 17;
        self.0.wrapping_mul(0x2545_f491_4f6c_dd1d)
    }

    /// A number below `bound`, from the upper bits, which are the better ones.
    pub fn below(&mut self, bound: u64) -> u64 {
        ((u128::from(self.bits()) * u128::from(bound)) >> 64) as u64
    }

    /// A number from `low` to `high`, both ends included and met often.
    pub fn within(&mut self, low: u64, high: u64) -> u64 {
        match self.below(4) {
            0 => low,
            1 => high,
            _ => low + self.below(high - low + 1),
        }
    }

    /// A number of random size: few of all u64 are small.
    pub fn sized(&mut self) -> u64 {
        self.bits() >> self.below(64)
    }

    pub fn index(&mut self, length: usize) -> usize {
        self.below(length as u64) as usize
    }

    pub fn pick<T: Copy>(&mut self, items: &[T]) -> T {
        items[self.index(items.len())]
    }

    /// A number from -1 to 1.
    pub fn unit(&mut self) -> f64 {
        let size = (self.bits() >> 11) as f64 / (1_u64 << 53) as f64;
        self.signed(size)
    }

    pub fn signed(&mut self, value: f64) -> f64 {
        if self.below(2) == 0 { value } else { -value }
    }

    /// Any f64, each pattern as likely as another.
    pub fn pattern(&mut self) -> f64 {
        f64::from_bits(self.bits())
    }
}
