//! Numbers that are the same in every run.

use std::cell::Cell;

/// The generator splitmix64.
pub struct Random(Cell<u64>);

impl Random {
    pub fn new(seed: u64) -> Random {
        Random(Cell::new(seed))
    }

    pub fn word(&self) -> u64 {
        let state = self.0.get().wrapping_add(0x9E37_79B9_7F4A_7C15);
        self.0.set(state);
        let mixed = (state ^ (state >> 30)).wrapping_mul(0xBF58_476D_1CE4_E5B9);
        let mixed = (mixed ^ (mixed >> 27)).wrapping_mul(0x94D0_49BB_1331_11EB);
        mixed ^ (mixed >> 31)
    }

    /// A number from 0 up to, and without, `limit`.
    pub fn below(&self, limit: u32) -> u32 {
        (self.word() % u64::from(limit)) as u32
    }

    /// A number from `low` to `high`, both included.
    pub fn from_to(&self, low: i32, high: i32) -> i32 {
        let numbers = i64::from(high) - i64::from(low) + 1;
        (i64::from(low) + (self.word() % numbers as u64) as i64) as i32
    }

    /// True once in `times` times.
    pub fn once_in(&self, times: u32) -> bool {
        self.below(times) == 0
    }

    pub fn pick<T: Copy>(&self, choices: &[T]) -> T {
        choices[self.below(choices.len() as u32) as usize]
    }

    pub fn shuffle<T>(&self, items: &mut [T]) {
        for last in (1..items.len()).rev() {
            items.swap(last, self.below(last as u32 + 1) as usize);
        }
    }
}
