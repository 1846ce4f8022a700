//! Random numbers that are the same in every run: splitmix64, small enough to be written here.
use std::collections::BTreeSet;
use std::ops::RangeInclusive;

pub struct Random(u64);

impl Random {
    pub fn new(seed: u64) -> Random {
        Random(seed)
    }

    pub fn number(&mut self) -> u64 {
        self.0 = self.0.wrapping_add(0x9e37_79b9_7f4a_7c15);
        let z = (self.0 ^ self.0 >> 30).wrapping_mul(0xbf58_476d_1ce4_e5b9);
        let z = (z ^ z >> 27).wrapping_mul(0x94d0_49bb_1331_11eb);
        z ^ z >> 31
    }

    pub fn within(&mut self, range: RangeInclusive<i32>) -> i32 {
        let (low, high) = (i64::from(*range.start()), i64::from(*range.end()));
        let n = self.number() % (high - low + 1) as u64;
        (low + n as i64) as i32
    }

    pub fn pick<T: Copy>(&mut self, from: &[T]) -> T {
        from[self.number() as usize % from.len()]
    }

    /// What may be lent where so many words or bytes are to be written: none, one too few, just as many, and some more.
    pub fn rooms(&mut self, needed: usize) -> BTreeSet<usize> {
        let more = needed + self.within(1..=9) as usize;
        BTreeSet::from([0, needed.saturating_sub(1), needed, more])
    }
}
