//! Random inputs that are the same in every run.

/// SplitMix64: small, and random enough to pick inputs.
pub struct Random(u64);

impl Random {
    /// A series of its own for each seed.
    pub fn seeded(seed: u64) -> Self {
        Self(seed)
    }

    /// Any number, all equally likely.
    pub fn word(&mut self) -> u64 {
        self.0 = self.0.wrapping_add(0x9e37_79b9_7f4a_7c15);
        let mixed = (self.0 ^ (self.0 >> 30)).wrapping_mul(0xbf58_476d_1ce4_e5b9);
        let mixed = (mixed ^ (mixed >> 27)).wrapping_mul(0x94d0_49bb_1331_11eb);
        mixed ^ (mixed >> 31)
    }

    /// A number below `bound`, which is not 0.
    pub fn below(&mut self, bound: u64) -> u64 {
        self.word() % bound
    }

    /// A number of up to `bits` bits, 1 to 64, small ones as likely as large ones.
    pub fn up_to_bits(&mut self, bits: u32) -> u64 {
        let dropped = 64 - bits + self.below(u64::from(bits)) as u32;
        self.word() >> dropped
    }

    /// One of `choices`, of which there is at least one.
    pub fn pick<T: Copy>(&mut self, choices: &[T]) -> T {
        choices[self.below(choices.len() as u64) as usize]
    }

    /// True once in `times` times on average.
    pub fn once_in(&mut self, times: u64) -> bool {
        self.below(times) == 0
    }

    /// Puts `items` in any order, all equally likely.
    pub fn shuffle<T>(&mut self, items: &mut [T]) {
        for last in (1..items.len()).rev() {
            items.swap(last, self.below(last as u64 + 1) as usize);
        }
    }
}
