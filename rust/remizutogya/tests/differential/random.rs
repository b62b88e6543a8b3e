//! Random numbers from a seed (splitmix64), and what is drawn by them.

use std::ops::RangeInclusive;

pub struct Random {
    state: u64,
}

impl Random {
    pub fn new(seed: u64) -> Random {
        Random { state: seed }
    }

    /// Any number.
    pub fn number(&mut self) -> u64 {
        self.state = self.state.wrapping_add(0x9e37_79b9_7f4a_7c15);
        let mixed = (self.state ^ self.state >> 30).wrapping_mul(0xbf58_476d_1ce4_e5b9);
        let mixed = (mixed ^ mixed >> 27).wrapping_mul(0x94d0_49bb_1331_11eb);
        mixed ^ mixed >> 31
    }

    /// A number below `end`, which is not 0.
    pub fn below(&mut self, end: usize) -> usize {
        (self.number() % end as u64) as usize
    }

    pub fn within(&mut self, range: RangeInclusive<usize>) -> usize {
        range.start() + self.below(range.end() - range.start() + 1)
    }

    /// True once in so many times.
    pub fn once_in(&mut self, times: usize) -> bool {
        self.below(times) == 0
    }

    pub fn pick<T: Copy>(&mut self, from: &[T]) -> T {
        from[self.below(from.len())]
    }

    pub fn limbs(&mut self, count: usize) -> Vec<u64> {
        (0..count).map(|_| self.number()).collect()
    }

    pub fn bytes(&mut self, count: usize) -> Vec<u8> {
        let mut bytes: Vec<u8> = self
            .limbs(count.div_ceil(8))
            .into_iter()
            .flat_map(u64::to_le_bytes)
            .collect();
        bytes.truncate(count);
        bytes
    }

    /// The length of an output for an answer of so many: exact, longer or too short.
    pub fn room(&mut self, exact: usize) -> usize {
        match self.below(20) {
            0 => self.below(exact + 1),
            1 => exact.saturating_sub(1),
            2..8 => exact + self.within(1..=24),
            _ => exact,
        }
    }
}
