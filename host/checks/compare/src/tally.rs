//! What `--verbose` tells of units that found no difference.

use crate::call::{Function, NAMES};
use std::fmt;

#[derive(Default)]
pub struct Tally {
    /// How many calls were made of each function.
    counts: [u64; NAMES.len()],
    remarks: Vec<String>,
}

impl Tally {
    pub fn count(&mut self, function: Function) {
        self.counts[function as usize] += 1;
    }

    pub fn remark(&mut self, remark: String) {
        self.remarks.push(remark);
    }

    /// The tally of another unit of the part.
    pub fn add(&mut self, other: Tally) {
        for (sum, count) in self.counts.iter_mut().zip(other.counts) {
            *sum += count;
        }
        self.remarks.extend(other.remarks);
    }
}

/// The counts with the functions' names, and the remarks behind them.
impl fmt::Display for Tally {
    fn fmt(&self, text: &mut fmt::Formatter<'_>) -> fmt::Result {
        let counts = NAMES.iter().zip(self.counts);
        let made: Vec<String> = counts
            .filter(|&(_, count)| count > 0)
            .map(|(name, count)| format!("{count} {name}"))
            .collect();
        text.write_str(&made.join(", "))?;
        for remark in &self.remarks {
            write!(text, "; {remark}")?;
        }
        Ok(())
    }
}
