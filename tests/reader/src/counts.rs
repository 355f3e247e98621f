//! How often the calls gave each number.

use std::collections::BTreeMap;

use crate::refusal::{BAD_FILE, BAD_INDICATOR};

/// The times of each number that a call can give: of all but the dump program's own.
#[derive(Debug)]
pub struct Counts {
    times: BTreeMap<u32, u64>,
}

impl Default for Counts {
    fn default() -> Counts {
        let numbers = (0..=BAD_INDICATOR).filter(|&number| number != BAD_FILE);
        Counts {
            times: numbers.map(|number| (number, 0)).collect(),
        }
    }
}

impl Counts {
    /// Counts a number; none if no call can give it.
    pub fn add(&mut self, number: u32) -> Option<()> {
        *self.times.get_mut(&number)? += 1;
        Some(())
    }

    /// The times of the number that was met the least.
    pub fn fewest(&self) -> u64 {
        self.times.values().copied().min().unwrap_or(0)
    }

    /// Each number with its times.
    pub fn iter(&self) -> impl Iterator<Item = (u32, u64)> + '_ {
        self.times.iter().map(|(&number, &times)| (number, times))
    }
}
