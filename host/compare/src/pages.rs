//! A sample of the Rust's answers about aligning and pages, recorded for the program `replay`.
//!
//! The sample is kept in the repository, so that it is replayed on machines without the Rust too.

use std::fmt;
use std::iter;

use crate::boundary::{around, distinct};
use crate::random::Random;
use crate::rust;

/// How many calls of each function are recorded, 10,000 in all; kinds have nine pairs and no more.
const ALIGN_DOWN: usize = 3_330;
const ALIGN_UP: usize = 3_330;
const SAME_PAGE: usize = 3_331;

const COMMENT: &str =
    "# Answers of gpu-allocator 0.28.0 with docs/oracle.patch, as host/compare's \
    record_pages writes them: function, arguments, answer";

/// The sample: a comment, then a line for each call, with the function's number (1 `align_down`,
/// 2 `align_up`, 3 `is_on_same_page`, 4 `has_granularity_conflict`), its arguments and its answer.
pub fn recorded() -> String {
    let mut random = Random::seeded(2028);
    let mut calls = Vec::new();
    calls.extend(align_downs(&mut random).take(ALIGN_DOWN));
    calls.extend(align_ups(&mut random).take(ALIGN_UP));
    calls.extend(same_pages(&mut random).take(SAME_PAGE));
    calls.extend(conflicts());

    let lines = calls.iter().map(|call| format!("{call}\n"));
    iter::once(format!("{COMMENT}\n")).chain(lines).collect()
}

/// One call of the Rust.
enum Call {
    AlignDown(u64, u64),
    AlignUp(u64, u64),
    SamePage(u64, u64, u64, u64),
    Conflict(u64, u64),
}

impl fmt::Display for Call {
    /// Asks the Rust, and writes the line of the sample.
    fn fmt(&self, f: &mut fmt::Formatter<'_>) -> fmt::Result {
        match *self {
            Call::AlignDown(val, alignment) => {
                let answer = rust::align_down(val, alignment);
                write!(f, "1 {val} {alignment} {answer}")
            }
            Call::AlignUp(val, alignment) => {
                let answer = rust::align_up(val, alignment);
                write!(f, "2 {val} {alignment} {answer}")
            }
            Call::SamePage(offset_a, size_a, offset_b, page_size) => {
                let answer = rust::is_on_same_page(offset_a, size_a, offset_b, page_size);
                let answer = u8::from(answer);
                write!(f, "3 {offset_a} {size_a} {offset_b} {page_size} {answer}")
            }
            Call::Conflict(type0, type1) => {
                let answer = rust::has_granularity_conflict(rust::kind(type0), rust::kind(type1));
                let answer = u8::from(answer);
                write!(f, "4 {type0} {type1} {answer}")
            }
        }
    }
}

/// Calls at the edges of every alignment, then random ones without end.
fn align_downs(random: &mut Random) -> impl Iterator<Item = Call> + '_ {
    values_to_align(random).map(|(val, alignment)| Call::AlignDown(val, alignment))
}

/// As [`align_downs`], where the Rust's `val + alignment` does not overflow.
fn align_ups(random: &mut Random) -> impl Iterator<Item = Call> + '_ {
    values_to_align(random)
        .filter(|(val, alignment)| val.checked_add(*alignment).is_some())
        .map(|(val, alignment)| Call::AlignUp(val, alignment))
}

fn values_to_align(random: &mut Random) -> impl Iterator<Item = (u64, u64)> + '_ {
    let edges = powers_of_two().flat_map(|alignment| {
        let last = last_multiple(alignment);
        // `last - 1` is the largest value whose sum with the alignment does not overflow
        let edges = [
            0,
            alignment,
            alignment.saturating_mul(2),
            last - 1,
            last,
            u64::MAX,
        ];
        let values = distinct(edges.into_iter().flat_map(|edge| around(edge, 1)));
        values.into_iter().map(move |val| (val, alignment))
    });
    edges.chain(iter::repeat_with(|| {
        let alignment = 1 << random.below(64);
        let anywhere = random.up_to_bits(64);
        let multiple = random.word() & last_multiple(alignment);
        let near = random.pick(&[multiple.wrapping_sub(1), multiple, multiple.wrapping_add(1)]);
        (random.pick(&[anywhere, near]), alignment)
    }))
}

/// Calls at the edges of pages of every size, then random ones without end.
fn same_pages(random: &mut Random) -> impl Iterator<Item = Call> + '_ {
    let mut edges = Vec::new();
    for page_size in powers_of_two() {
        let last = last_multiple(page_size);
        for page in [0, page_size, random.word() & last, last] {
            for (end_a, offset_b) in page_edges(page, page_size) {
                let size_a = 1 + random.below(end_a + 1);
                edges.push(Call::SamePage(
                    end_a + 1 - size_a,
                    size_a,
                    offset_b,
                    page_size,
                ));
            }
        }
    }
    edges.into_iter().chain(iter::repeat_with(|| {
        let page_size = 1 << random.below(64);
        let offset_a = random.up_to_bits(63);
        let size_a = 1 + random.up_to_bits(63);
        let anywhere = random.up_to_bits(64);
        let near = (offset_a + size_a).saturating_add(random.below(page_size));
        Call::SamePage(offset_a, size_a, random.pick(&[anywhere, near]), page_size)
    }))
}

/// A last byte at either end of the page that starts at `page`, and a first byte at either end or
/// just outside.
fn page_edges(page: u64, page_size: u64) -> impl Iterator<Item = (u64, u64)> {
    let last = page + (page_size - 1);
    let starts = [
        page.checked_sub(1),
        Some(page),
        Some(last),
        last.checked_add(1),
    ];
    [page, last]
        .into_iter()
        // the Rust adds the size before it takes 1 off
        .filter(|&end| end < u64::MAX)
        .flat_map(move |end| starts.into_iter().flatten().map(move |start| (end, start)))
}

/// Every pair of kinds.
fn conflicts() -> impl Iterator<Item = Call> {
    (0..3).flat_map(|type0| (0..3).map(move |type1| Call::Conflict(type0, type1)))
}

fn powers_of_two() -> impl Iterator<Item = u64> {
    (0..64).map(|exponent| 1 << exponent)
}

/// The last multiple of a power of two. As a mask it rounds down to a multiple.
fn last_multiple(power: u64) -> u64 {
    u64::MAX - (power - 1)
}
