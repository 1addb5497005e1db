//! Calls by refusal number.

use std::fmt;

/// 0 is done.
#[derive(Clone, Copy, Default)]
pub struct Tally([u64; 23]);

impl Tally {
    pub fn add(&mut self, refusal: u64) {
        if let Some(count) = self.0.get_mut(refusal as usize) {
            *count += 1;
        }
    }

    pub fn of(&self, refusal: u32) -> u64 {
        self.0[refusal as usize]
    }

    pub fn total(&self) -> u64 {
        self.0.iter().sum()
    }
}

impl fmt::Display for Tally {
    fn fmt(&self, f: &mut fmt::Formatter) -> fmt::Result {
        write!(f, "{} (done {}", self.total(), self.0[0])?;
        for (number, count) in self.0.iter().enumerate().skip(1).filter(|(_, count)| **count > 0) {
            write!(f, ", {number}: {count}")?;
        }
        write!(f, ")")
    }
}
