//! A small random number generator with a fixed seed, so that every run compares the same cases.

/// A 64-bit counter that is mixed well before each use.
pub struct Random {
    counter: u64,
}

impl Random {
    /// A generator for a seed and the number of a case, so that a case doesn't depend on those before it.
    pub fn new(seed: u64, case: usize) -> Random {
        let mut start = Random { counter: seed };
        let mixed = start.bits() ^ (case as u64).wrapping_mul(0xD134_2543_DE82_EF95);
        Random { counter: mixed }
    }

    /// The next 64 random bits.
    pub fn bits(&mut self) -> u64 {
        self.counter = self.counter.wrapping_add(0x9E37_79B9_7F4A_7C15);
        let mut bits = self.counter;
        bits = (bits ^ bits >> 30).wrapping_mul(0xBF58_476D_1CE4_E5B9);
        bits = (bits ^ bits >> 27).wrapping_mul(0x94D0_49BB_1331_11EB);
        bits ^ bits >> 31
    }

    /// A random number below a bound.
    pub fn below(&mut self, bound: usize) -> usize {
        (self.bits() % bound as u64) as usize
    }

    /// A random byte.
    pub fn byte(&mut self) -> u8 {
        self.bits() as u8
    }

    /// A random byte that isn't 0.
    pub fn byte_not_zero(&mut self) -> u8 {
        1 + self.below(255) as u8
    }

    /// As many random bytes as asked for.
    pub fn bytes(&mut self, length: usize) -> Vec<u8> {
        (0..length).map(|_| self.byte()).collect()
    }
}
