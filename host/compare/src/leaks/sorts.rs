//! Sorts of steps of the leak walk on sound tables: what is handed out, and from where. Comparisons count
//! them, so that none passes by leaving a sort out.

use super::{live, Stepped};
use crate::sort::sort;
use crate::table::{Chunk, Table, MOST_SLOTS};

/// A step from a place on a sound table.
pub struct Step<'a> {
    /// The table.
    pub table: &'a Table,
    /// The place before the step.
    pub place: u64,
    /// What was answered.
    pub stepped: Stepped,
}

/// A sort of these steps.
pub type Sort = crate::sort::Sort<fn(&Step) -> bool>;

/// A number that does not fit in half a word.
const LARGE: u64 = 1 << 32;

impl Sort {
    /// Where the chunk that is handed out stands.
    pub const FOUND: &'static [Sort] = &[
        sort("a chunk at the place", |step| {
            is_found(step, |chunk| chunk.first == step.place)
        }),
        sort("a chunk right behind another live one", |step| {
            let ends = |end| live(step.table).any(|chunk| chunk.first + chunk.size == end);
            is_found(step, |chunk| chunk.first == step.place && ends(step.place))
        }),
        sort("a chunk past a free one at the place", |step| {
            is_found(step, |_| begins(step, Chunk::is_free))
        }),
        sort("a chunk past a free one that holds the place", |step| {
            is_found(step, |_| is_inside(step, Chunk::is_free))
        }),
        sort("a chunk past a live one that holds the place", |step| {
            is_found(step, |_| is_inside(step, |chunk| !chunk.is_free()))
        }),
        sort("the first chunk", |step| {
            is_found(step, |chunk| chunk.first == 0)
        }),
        sort("the last chunk", |step| {
            is_found(step, |chunk| chunk.first + chunk.size == step.table.size)
        }),
        sort("the whole block", |step| {
            is_found(step, |chunk| chunk.size == step.table.size)
        }),
        sort("a chunk in a lower slot than one before it", |step| {
            is_found(step, |chunk| {
                live(step.table).any(|other| other.first < chunk.first && other.slot > chunk.slot)
            })
        }),
    ];

    /// What the chunk that is handed out is like.
    pub const KINDS: &'static [Sort] = &[
        sort("linear", |step| is_found(step, |chunk| chunk.kind == 1)),
        sort("non-linear", |step| is_found(step, |chunk| chunk.kind == 2)),
        sort("label 0", |step| is_found(step, |chunk| chunk.label == 0)),
        sort("a large label", |step| {
            is_found(step, |chunk| chunk.label >= LARGE)
        }),
        sort("a large id", |step| {
            is_found(step, |chunk| chunk.id >= LARGE)
        }),
        sort("a large size", |step| {
            is_found(step, |chunk| chunk.size >= LARGE)
        }),
        sort("a large first byte", |step| {
            is_found(step, |chunk| chunk.first >= LARGE)
        }),
        sort("one byte", |step| is_found(step, |chunk| chunk.size == 1)),
    ];

    /// Where the walk is over.
    pub const END: &'static [Sort] = &[
        sort("the end of an empty block", |step| {
            is_end(step) && step.table.allocated == 0
        }),
        sort("the end behind the last live chunk", |step| {
            is_end(step) && last_live(step).map_or(false, |(_, end)| end == step.place)
        }),
        sort("the end inside the last live chunk", |step| {
            let is_in = |(first, end)| first < step.place && step.place < end;
            is_end(step) && last_live(step).map_or(false, is_in)
        }),
        sort("the end inside the last free chunk", |step| {
            is_end(step) && is_inside(step, Chunk::is_free)
        }),
        sort("the end at the end of the block", |step| {
            is_end(step) && step.place == step.table.size
        }),
        sort("the end past the block", |step| {
            is_end(step) && step.place > step.table.size
        }),
        sort("the end at 2^64 - 1", |step| {
            is_end(step) && step.place == u64::MAX
        }),
    ];

    /// How full tables are.
    pub const FULL: &'static [Sort] = &[
        sort("on one slot", |step| step.table.slots == 1),
        sort("on a full table", |step| {
            step.table.chunks.len() == step.table.slots
        }),
        sort("on 512 slots", |step| step.table.slots == MOST_SLOTS),
        sort("on many slots, most of them used", |step| {
            step.table.slots >= 64 && 4 * step.table.chunks.len() >= 3 * step.table.slots
        }),
    ];

    /// Every sort.
    pub fn all() -> impl Iterator<Item = &'static Sort> {
        let lists = [Self::FOUND, Self::KINDS, Self::END, Self::FULL];
        lists.into_iter().flatten()
    }
}

fn is_end(step: &Step) -> bool {
    step.stepped.is_end()
}

/// Whether such a chunk is handed out.
fn is_found(step: &Step, is_such: impl Fn(&Chunk) -> bool) -> bool {
    let [id, ..] = step.stepped.leak;
    live(step.table).any(|chunk| chunk.id == id && is_such(chunk))
}

/// Whether such a chunk begins at the place.
fn begins(step: &Step, is_such: fn(&Chunk) -> bool) -> bool {
    let mut chunks = step.table.chunks.iter();
    chunks.any(|chunk| chunk.first == step.place && is_such(chunk))
}

/// Whether the place is a byte of such a chunk, and not its first.
fn is_inside(step: &Step, is_such: fn(&Chunk) -> bool) -> bool {
    let mut chunks = step.table.chunks.iter();
    chunks.any(|chunk| {
        chunk.first < step.place && step.place < chunk.first + chunk.size && is_such(chunk)
    })
}

/// Where the last live chunk begins and ends.
fn last_live(step: &Step) -> Option<(u64, u64)> {
    let last = live(step.table).last();
    last.map(|chunk| (chunk.first, chunk.first + chunk.size))
}
