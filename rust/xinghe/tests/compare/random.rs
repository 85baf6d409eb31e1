//! Numbers that look random and are the same in every run (splitmix64).

pub struct Random {
    state: u64,
}

impl Random {
    pub fn new(seed: u64) -> Self {
        Self { state: seed }
    }

    pub fn number(&mut self) -> u64 {
        self.state = self.state.wrapping_add(0x9e37_79b9_7f4a_7c15);
        let mut z = self.state;
        z = (z ^ (z >> 30)).wrapping_mul(0xbf58_476d_1ce4_e5b9);
        z = (z ^ (z >> 27)).wrapping_mul(0x94d0_49bb_1331_11eb);
        z ^ (z >> 31)
    }

    pub fn below(&mut self, limit: u64) -> u64 {
        self.number() % limit
    }

    pub fn pick<T: Copy>(&mut self, list: &[T]) -> T {
        list[self.below(list.len() as u64) as usize]
    }

    /// A count of months: a few, some that mostly stay within the round, any
    /// of 64 bits, and the extremes.
    pub fn count(&mut self) -> i64 {
        match self.below(8) {
            0..=2 => self.below(41) as i64 - 20,
            3..=5 => self.below(12_000_001) as i64 - 6_000_000,
            6 => self.number() as i64,
            _ => self.pick(&[0, 1, -1, i64::MIN, i64::MIN + 1, i64::MAX]),
        }
    }
}
