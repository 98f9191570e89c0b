//! Counts of the calls that were compared.

use std::fmt;

use crate::calls::{Call, Step};
use crate::counts::Counts;
use crate::sorts::Sort;

/// Counts by the sorts of steps, and by the numbers that calls come with.
#[derive(Default)]
pub struct CallTally {
    /// All calls.
    pub calls: u64,
    /// By sort; a step may be of several.
    pub sorts: Counts<&'static str>,
    /// Accepted requests, by the exponent of the alignment.
    pub alignments: Counts<u32>,
    /// Accepted requests, by the exponent of the granularity.
    pub granularities: Counts<u32>,
    /// By the exponent of the block's size, rounded down to a power of two.
    pub sizes: Counts<u32>,
    /// By the number of slots.
    pub slots: Counts<usize>,
}

impl CallTally {
    /// Counts one call.
    pub fn count(&mut self, step: &Step) {
        self.calls += 1;
        for sort in Sort::all().filter(|sort| (sort.has)(step)) {
            self.sorts.count(sort.name);
        }
        if let (Call::Allocate(request), 0) = (step.call, step.answer.number) {
            self.alignments.count(request.alignment.trailing_zeros());
            self.granularities
                .count(request.granularity.trailing_zeros());
        }
        self.sizes.count(63 - step.before.size.leading_zeros());
        self.slots.count(step.before.slots);
    }

    /// Adds the counts of another part.
    pub fn add(&mut self, other: Self) {
        self.calls += other.calls;
        self.sorts.add(other.sorts);
        self.alignments.add(other.alignments);
        self.granularities.add(other.granularities);
        self.sizes.add(other.sizes);
        self.slots.add(other.slots);
    }
}

impl fmt::Display for CallTally {
    fn fmt(&self, f: &mut fmt::Formatter<'_>) -> fmt::Result {
        writeln!(f, "{:>9} calls", self.calls)?;
        for sort in Sort::all() {
            writeln!(f, "{:>9} {}", self.sorts.of(&sort.name), sort.name)?;
        }
        writeln!(f, "accepted, by alignment: {:?}", self.alignments)?;
        writeln!(f, "accepted, by granularity: {:?}", self.granularities)?;
        writeln!(f, "by block size: {:?}", self.sizes)
    }
}
