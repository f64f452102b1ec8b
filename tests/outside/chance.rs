//! Seeded chance: the same seed gives the same numbers.

pub struct Chance {
    state: u64,
}

impl Chance {
    pub fn new(seed: u64) -> Chance {
        Chance {
            state: seed.wrapping_mul(0x9e37_79b9_7f4a_7c15) ^ 0xd1b5_4a32_d192_ed03,
        }
    }

    /// The next number, by xorshift64*.
    fn next(&mut self) -> u64 {
        if self.state == 0 {
            self.state = 1;
        }
        self.state ^= self.state >> 12;
        self.state ^= self.state << 25;
        self.state ^= self.state >> 27;
        self.state.wrapping_mul(0x2545_f491_4f6c_dd1d)
    }

    /// A number from 0 to n - 1.
    pub fn below(&mut self, n: usize) -> usize {
        ((self.next() >> 32) as usize * n) >> 32
    }

    pub fn byte(&mut self) -> u8 {
        self.below(256) as u8
    }

    /// Whether something came that happens n times in a thousand.
    pub fn happens(&mut self, n: usize) -> bool {
        self.below(1000) < n
    }

    pub fn letter(&mut self) -> u8 {
        32 + self.below(96) as u8
    }

    /// One of some things.
    pub fn pick<T: Copy>(&mut self, of: &[T]) -> T {
        of[self.below(of.len())]
    }
}
