//! Numbers for the cases: the same each time for a seed.

use std::time::{SystemTime, UNIX_EPOCH};

/// A seed for a run that is given none.
pub fn seed_of_clock() -> u64 {
    let since = SystemTime::now().duration_since(UNIX_EPOCH);
    since.expect("a clock").as_micros() as u64
}

/// Marsaglia's xorshift.
pub struct Random(pub u64);

impl Random {
    /// Of any seed. Seeds that follow on one another have numbers that have nothing to do with one another: it is
    /// Steele's, Lea's and Flood's splitmix that makes the first of them.
    pub fn of_seed(seed: u64) -> Random {
        let mut state = seed.wrapping_add(0x9e37_79b9_7f4a_7c15);
        state = (state ^ state >> 30).wrapping_mul(0xbf58_476d_1ce4_e5b9);
        state = (state ^ state >> 27).wrapping_mul(0x94d0_49bb_1331_11eb);
        // xorshift would stay at 0
        Random((state ^ state >> 31).max(1))
    }

    pub fn below(&mut self, n: u64) -> u64 {
        self.0 ^= self.0 << 13;
        self.0 ^= self.0 >> 7;
        self.0 ^= self.0 << 17;
        (self.0 >> 16) % n
    }

    pub fn index(&mut self, len: usize) -> usize {
        self.below(len as u64) as usize
    }

    pub fn pick<T: Copy>(&mut self, from: &[T]) -> T {
        from[self.index(from.len())]
    }
}
