//! A fixed stream of pseudo-random words (SplitMix64), so that every run produces the same test data.

pub struct Random(u64);

impl Random {
    pub fn new(seed: u64) -> Self {
        Random(seed)
    }

    pub fn word(&mut self) -> u64 {
        self.0 = self.0.wrapping_add(0x9E37_79B9_7F4A_7C15);
        let mut z = self.0;
        z = (z ^ (z >> 30)).wrapping_mul(0xBF58_476D_1CE4_E5B9);
        z = (z ^ (z >> 27)).wrapping_mul(0x94D0_49BB_1331_11EB);
        z ^ (z >> 31)
    }

    /// Returns a random word of at most `n` bits.
    pub fn bits(&mut self, n: u32) -> u64 {
        if n == 0 {
            0
        } else {
            self.word() >> (64 - n)
        }
    }

    /// Returns a random whole number below `n`, for a small `n`.
    pub fn below(&mut self, n: u64) -> u64 {
        self.word() % n
    }

    /// Returns a float from 0 to below 1, with 53 random bits.
    pub fn fraction(&mut self) -> f64 {
        self.bits(53) as f64 / (1u64 << 53) as f64
    }
}

/// Returns a random element.
pub fn pick<T: Clone>(all: &[T], r: &mut Random) -> T {
    all[r.below(all.len() as u64) as usize].clone()
}
