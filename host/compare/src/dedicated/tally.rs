//! Counts of the calls on dedicated blocks that were compared.

use std::fmt;

use super::calls::{is_sound, word, Call, Step};
use super::sorts::Sort;
use crate::counts::Counts;
use crate::requests::fault;
use crate::rust::Request;

/// Counts by the sorts of steps, and by the numbers that calls come with.
#[derive(Default)]
pub struct Tally {
    /// All calls.
    pub calls: u64,
    /// By sort; a step may be of several.
    pub sorts: Counts<&'static str>,
    /// By what was called, and the number that was answered.
    pub numbers: Counts<(&'static str, u64)>,
    /// Requests, frees and renames with several faults, by the one that comes first and each that comes after it.
    pub pairs: Counts<(u64, u64)>,
    /// Accepted requests, by the exponent of the alignment.
    pub alignments: Counts<u32>,
    /// Accepted requests, by the exponent of the granularity.
    pub granularities: Counts<u32>,
    /// By the exponent of the block's size, rounded down to a power of two; 64 for a size of 0.
    pub sizes: Counts<u32>,
}

impl Tally {
    /// Counts one call.
    pub fn count(&mut self, step: &Step) {
        self.calls += 1;
        for sort in Sort::all().filter(|sort| (sort.has)(step)) {
            self.sorts.count(sort.name);
        }
        self.numbers.count((name(step.call), step.answer.number));
        if let [first, later @ ..] = &faults(step)[..] {
            for other in later {
                self.pairs.count((*first, *other));
            }
        }
        if let (Call::Allocate(request), 0) = (step.call, step.answer.number) {
            self.alignments.count(request.alignment.trailing_zeros());
            self.granularities
                .count(request.granularity.trailing_zeros());
        }
        self.sizes.count(match step.before[word::SIZE] {
            0 => 64,
            size => 63 - size.leading_zeros(),
        });
    }

    /// Adds the counts of another part.
    pub fn add(&mut self, other: Self) {
        self.calls += other.calls;
        self.sorts.add(other.sorts);
        self.numbers.add(other.numbers);
        self.pairs.add(other.pairs);
        self.alignments.add(other.alignments);
        self.granularities.add(other.granularities);
        self.sizes.add(other.sizes);
    }
}

/// What was called.
fn name(call: Call) -> &'static str {
    match call {
        Call::New(_) => "new",
        Call::Allocate(_) => "allocate",
        Call::Free(_) => "free",
        Call::Rename(..) => "rename",
        Call::Allocated => "allocated",
        Call::IsEmpty => "is_empty",
        Call::Report => "report",
    }
}

/// Every fault of a request, a free or a rename, in the order of the rules.
fn faults(step: &Step) -> Vec<u64> {
    let [size, allocated, _] = step.before;
    let mut faults = Vec::new();
    if !is_sound(step.before) {
        faults.push(2);
    }
    match step.call {
        Call::Allocate(request) => {
            faults.extend(request_faults(request));
            faults.extend((allocated != 0).then_some(11));
            faults.extend((request.size != size).then_some(12));
        }
        Call::Free(id) | Call::Rename(id, _) => faults.extend((id != 1).then_some(18)),
        _ => faults.clear(),
    }
    faults
}

/// Every fault of a request that can be seen without a block, each looked for in a request that has no other.
fn request_faults(request: Request) -> impl Iterator<Item = u64> {
    let right = Request {
        size: 1,
        alignment: 1,
        kind: 1,
        granularity: 1,
        label: 0,
    };
    let Request {
        size,
        alignment,
        kind,
        granularity,
        ..
    } = request;
    let alone = [
        Request { size, ..right },
        Request { alignment, ..right },
        Request {
            granularity,
            ..right
        },
        Request { kind, ..right },
    ];
    alone.into_iter().filter_map(fault)
}

impl fmt::Display for Tally {
    fn fmt(&self, f: &mut fmt::Formatter<'_>) -> fmt::Result {
        writeln!(f, "{:>9} calls", self.calls)?;
        for sort in Sort::all() {
            writeln!(f, "{:>9} {}", self.sorts.of(&sort.name), sort.name)?;
        }
        writeln!(f, "by call and number: {:?}", self.numbers)?;
        writeln!(f, "by two faults: {:?}", self.pairs)?;
        writeln!(f, "accepted, by alignment: {:?}", self.alignments)?;
        writeln!(f, "accepted, by granularity: {:?}", self.granularities)?;
        writeln!(f, "by block size: {:?}", self.sizes)
    }
}
