//! Random numbers from a seed.
#![allow(dead_code)]

/// A generator of random numbers, by xorshift.
pub struct Random(u64);

impl Random {
    pub fn new(seed: u64) -> Random {
        Random(seed.wrapping_mul(0x9E37_79B9_7F4A_7C15) | 1)
    }

    pub fn next(&mut self) -> u64 {
        self.0 ^= self.0 << 13;
        self.0 ^= self.0 >> 7;
        self.0 ^= self.0 << 17;
        self.0.wrapping_mul(0x2545_F491_4F6C_DD1D)
    }

    pub fn below(&mut self, limit: u64) -> u64 {
        (self.next() >> 33) % limit
    }

    pub fn one_in(&mut self, times: u64) -> bool {
        self.below(times) == 0
    }

    pub fn pick<T: Copy>(&mut self, from: &[T]) -> T {
        from[self.below(from.len() as u64) as usize]
    }

    pub fn bits(&mut self) -> u128 {
        (self.next() as u128) << 64 | self.next() as u128
    }

    /// A byte from `low` to `high`.
    pub fn byte(&mut self, low: u8, high: u8) -> u8 {
        low + self.below(high as u64 - low as u64 + 1) as u8
    }
}
