//! Seeded random numbers (SplitMix64), so that a run can be repeated.

use std::env;
use std::ops::RangeInclusive;

pub struct Random(u64);

impl Random {
    pub fn new(seed: u64) -> Random {
        Random(seed)
    }

    fn draw(&mut self) -> u64 {
        self.0 = self.0.wrapping_add(0x9e37_79b9_7f4a_7c15);
        let z = self.0;
        let z = (z ^ (z >> 30)).wrapping_mul(0xbf58_476d_1ce4_e5b9);
        let z = (z ^ (z >> 27)).wrapping_mul(0x94d0_49bb_1331_11eb);
        z ^ (z >> 31)
    }

    /// Any value of the type.
    pub fn any<T: Any>(&mut self) -> T {
        T::from_bits(self.draw())
    }

    pub fn below(&mut self, end: usize) -> usize {
        (self.draw() % end as u64) as usize
    }

    /// A number from least to greatest, both possible.
    pub fn within(&mut self, least: u32, greatest: u32) -> u32 {
        least + self.below((greatest - least + 1) as usize) as u32
    }

    /// The same, with both ends drawn often.
    pub fn within_or_end(&mut self, least: u32, greatest: u32) -> u32 {
        match self.below(3) {
            0 => least,
            1 => greatest,
            _ => self.within(least, greatest),
        }
    }

    pub fn one_in(&mut self, n: usize) -> bool {
        self.below(n) == 0
    }

    pub fn pick<T: Copy>(&mut self, from: &[T]) -> T {
        from[self.below(from.len())]
    }

    /// A value out of range. Many look right to a reader that drops bytes or turns them round.
    pub fn outside(&mut self, range: RangeInclusive<u32>, value: u32) -> u32 {
        let values = [
            range.start().saturating_sub(1),
            range.end() + 1,
            range.end() + 2,
            value | 1 << 8,
            value | 1 << 16,
            value | 1 << 24,
            value | 1 << 31,
            value.swap_bytes(),
            0x0001_0001,
            u32::MAX,
            self.any(),
        ];
        loop {
            let value = self.pick(&values);
            if !range.contains(&value) {
                return value;
            }
        }
    }

    pub fn shuffle<T>(&mut self, items: &mut [T]) {
        for i in (1..items.len()).rev() {
            items.swap(i, self.below(i + 1));
        }
    }
}

/// A type whose every value can be drawn.
pub trait Any {
    fn from_bits(bits: u64) -> Self;
}

impl Any for u8 {
    fn from_bits(bits: u64) -> u8 {
        bits as u8
    }
}

impl Any for u16 {
    fn from_bits(bits: u64) -> u16 {
        bits as u16
    }
}

impl Any for u32 {
    fn from_bits(bits: u64) -> u32 {
        bits as u32
    }
}

/// How many cases to run: `base`, times VEZHDANUR_CASES if that is set.
pub fn cases(base: usize) -> usize {
    match env::var("VEZHDANUR_CASES") {
        Ok(times) => base * times.parse::<usize>().expect("VEZHDANUR_CASES: a number"),
        Err(_) => base,
    }
}
