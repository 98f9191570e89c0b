//! Counts of the steps of leak walks that were compared.

use std::fmt;

use super::sorts::{Sort, Step};
use crate::counts::Counts;

/// Counts of steps, and of whole walks.
#[derive(Default)]
pub struct Tally {
    /// All steps on sound tables.
    pub steps: u64,
    /// Whole walks.
    pub walks: u64,
    /// Steps by sort; a step may be of several.
    pub sorts: Counts<&'static str>,
    /// By the exponent of the block's size, rounded down to a power of two.
    pub sizes: Counts<u32>,
    /// Whole walks, by how many chunks they hand out.
    pub lengths: Counts<usize>,
    /// Chunks of whole walks that begin before the offset that was given to their request.
    pub padded: u64,
}

impl Tally {
    /// Counts one step.
    pub fn count(&mut self, step: &Step) {
        self.steps += 1;
        for sort in Sort::all().filter(|sort| (sort.has)(step)) {
            self.sorts.count(sort.name);
        }
        self.sizes.count(63 - step.table.size.leading_zeros());
    }

    /// Counts a whole walk that hands out this many chunks.
    pub fn count_walk(&mut self, length: usize) {
        self.walks += 1;
        self.lengths.count(length);
    }

    /// Adds the counts of another part.
    pub fn add(&mut self, other: Self) {
        self.steps += other.steps;
        self.walks += other.walks;
        self.sorts.add(other.sorts);
        self.sizes.add(other.sizes);
        self.lengths.add(other.lengths);
        self.padded += other.padded;
    }
}

impl fmt::Display for Tally {
    fn fmt(&self, f: &mut fmt::Formatter<'_>) -> fmt::Result {
        writeln!(f, "{:>9} steps", self.steps)?;
        writeln!(f, "{:>9} whole walks", self.walks)?;
        writeln!(f, "{:>9} chunks behind padding", self.padded)?;
        for sort in Sort::all() {
            writeln!(f, "{:>9} {}", self.sorts.of(&sort.name), sort.name)?;
        }
        writeln!(f, "walks, by their length: {:?}", self.lengths)?;
        writeln!(f, "by block size: {:?}", self.sizes)
    }
}
