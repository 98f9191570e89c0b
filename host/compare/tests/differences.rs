//! The inputs of docs/DIFFERENCES.md, run on both sides: each shows the difference that is listed.

use std::collections::HashSet;
use std::hint::black_box;
use std::panic::catch_unwind;

use lunkaseyo::{ffi, fmt_bytes, AllocationSizes, Block, Dedicated, Refusal};
use lunkaseyo_compare::boundary::MB;
use lunkaseyo_compare::calls::{asked, Answer, Call};
use lunkaseyo_compare::dedicated::calls as dedicated;
use lunkaseyo_compare::rust::{
    self, AllocationError, DedicatedBlockAllocator, FreeListAllocator, Request, SubAllocator,
};

fn number<T>(answer: Result<T, Refusal>) -> Option<u64> {
    answer.err().map(Refusal::number)
}

#[test]
fn sizes_that_the_rules_cannot_produce() {
    let theirs = rust::sizes([0; 4]);
    assert_eq!(theirs.get_memblock_size(false, 0), 0);
    let grown = rust::words(theirs.with_max_device_memblock_size(0));
    assert_eq!(grown, [0, 4 * MB, 0, 0]);

    let ours = AllocationSizes::from([0; 4]);
    assert_eq!(number(ours.get_memblock_size(false, 0)), Some(14));
    assert_eq!(number(ours.with_max_device_memblock_size(0)), Some(14));
}

#[test]
fn amounts_past_the_last_unit() {
    assert!(catch_unwind(|| rust::fmt_bytes(1 << 50)).is_err());
    assert_eq!(number(fmt_bytes(1 << 50, &mut [0; 12])), Some(15));
}

#[test]
fn buffers_that_are_too_short() {
    assert_eq!(rust::fmt_bytes(0).len(), 6);
    let mut buf = [7; 5];
    assert_eq!(number(fmt_bytes(0, &mut buf)), Some(16));
    assert_eq!(buf, [7; 5]);
}

#[test]
fn a_sum_that_passes_the_largest_number() {
    // The function here is not exported; that it answers 2^63 is what its contract says.
    let half = 1 << 63;
    assert!(catch_unwind(|| black_box(rust::align_up(black_box(half), half))).is_err());
}

#[test]
fn blocks_of_no_bytes_and_of_too_many() {
    for size in [0, (1 << 40) + 1] {
        let theirs = FreeListAllocator::new(size);
        assert_eq!(theirs.allocated(), 0);
        assert_eq!(theirs.chunks.len(), 1);
        assert!(theirs.chunks.values().all(|chunk| chunk.size == size));

        let mut words = [7; Block::words(1)];
        assert_eq!(number(Block::new(&mut words, size)), Some(13));
        assert_eq!(words, [7; Block::words(1)]);
    }
}

#[test]
fn a_total_that_the_chunks_do_not_bear_out() {
    let mut theirs = FreeListAllocator::new(16);
    theirs.allocated = 5;
    assert_eq!(theirs.allocated(), 5);
    assert!(!theirs.is_empty());
    assert!(theirs.report_allocations().is_empty());

    let mut words = [0; Block::words(1)];
    Block::new(&mut words, 16).expect("16 bytes are a block");
    words[1] = 5;
    let ours = Block::over(&mut words);
    assert_eq!(number(ours.allocated()), Some(2));
    assert_eq!(number(ours.is_empty()), Some(2));
    assert_eq!(number(ours.leaks()), Some(2));
}

/// A linear byte, anywhere.
const A_BYTE: Request = Request {
    size: 1,
    alignment: 1,
    kind: 1,
    granularity: 1,
    label: 0,
};

/// The words of a new block.
fn fresh(size: u64, slots: usize) -> Vec<u64> {
    let mut words = vec![0; Block::words(slots)];
    Block::new(&mut words, size).expect("1 to 512 slots, 1 to 2^40 bytes");
    words
}

/// Fails unless the request is refused with this number, and changes no word.
fn assert_refused(mut words: Vec<u64>, request: Request, number: u64) {
    let before = words.clone();
    let answer = asked(&mut words, Call::Allocate(request));
    assert_eq!(answer, Answer::plain(number));
    assert_eq!(words, before);
}

#[test]
fn a_size_of_0() {
    let nothing = Request { size: 0, ..A_BYTE };
    let mut theirs = FreeListAllocator::new(1);
    let placed = rust::allocate(&mut theirs, nothing);
    assert_eq!(placed.expect("it makes a chunk of no bytes"), (0, 2));
    assert_eq!((theirs.allocated(), theirs.chunks.len()), (0, 2));

    assert_refused(fresh(1, 1), nothing, 3);
}

#[test]
fn alignments_that_are_no_power_of_two() {
    let aligned = |alignment| Request {
        alignment,
        ..A_BYTE
    };
    let asked = |alignment| rust::allocate(&mut FreeListAllocator::new(1), aligned(alignment));
    assert!(catch_unwind(|| asked(0)).is_err());
    assert_eq!(asked(3).expect("0 keeps to any alignment"), (0, 1));

    assert_refused(fresh(1, 1), aligned(0), 4);
    assert_refused(fresh(1, 1), aligned(3), 4);
}

#[test]
fn granularities_that_are_no_power_of_two() {
    for granularity in [0, 3] {
        let request = Request {
            granularity,
            ..A_BYTE
        };
        let placed = rust::allocate(&mut FreeListAllocator::new(1), request);
        assert_eq!(placed.expect("there is no neighbour"), (0, 1));

        assert_refused(fresh(1, 1), request, 5);
    }
}

#[test]
fn a_kind_of_0() {
    let free = Request { kind: 0, ..A_BYTE };
    let mut theirs = FreeListAllocator::new(1);
    let placed = rust::allocate(&mut theirs, free);
    assert_eq!(placed.expect("it hands out a free chunk"), (0, 1));
    let mut kinds = theirs.chunks.values().map(|chunk| chunk.allocation_type);
    assert!(kinds.all(|kind| rust::kind_number(kind) == 0));
    assert_eq!((theirs.allocated(), theirs.free_chunks.len()), (1, 0));

    assert_refused(fresh(1, 1), free, 6);
}

#[test]
fn a_split_without_an_empty_slot() {
    let mut theirs = FreeListAllocator::new(2);
    let placed = rust::allocate(&mut theirs, A_BYTE);
    assert_eq!(placed.expect("there is no end of slots"), (0, 2));

    assert_refused(fresh(2, 1), A_BYTE, 9);
}

/// Places bytes on both sides, which get these ids, and gives back those of the second list.
fn placed_and_freed(bytes: u64, ids: &[u64], freed: &[u64]) -> (FreeListAllocator, Vec<u64>) {
    let mut theirs = FreeListAllocator::new(bytes);
    let mut words = fresh(bytes, bytes as usize);
    for &id in ids {
        let placed = rust::allocate(&mut theirs, A_BYTE);
        assert_eq!(placed.expect("there is room").1, id);
        assert_eq!(asked(&mut words, Call::Allocate(A_BYTE)).id, id);
    }
    for &id in freed {
        rust::free(&mut theirs, id).expect("the id is live");
        assert_eq!(asked(&mut words, Call::Free(id)), Answer::plain(0));
    }
    (theirs, words)
}

#[test]
fn an_id_that_is_given_back_twice() {
    let (mut theirs, mut words) = placed_and_freed(2, &[2, 1], &[2]);
    rust::free(&mut theirs, 2).expect("a chunk has the id");
    assert_eq!(theirs.allocated(), 0);
    assert_eq!(asked(&mut words, Call::Free(2)), Answer::plain(10));
    assert_eq!(Block::over(&mut words).allocated(), Ok(1));

    // where nothing is left to subtract from, the difference overflows
    let again = || rust::free(&mut FreeListAllocator::new(1), 1);
    assert!(catch_unwind(again).is_err());
    assert_eq!(asked(&mut fresh(1, 1), Call::Free(1)), Answer::plain(10));
}

/// What the Rust chooses without docs/oracle.patch is not run here: of equal chunks it is the first
/// that the set of free ones hands out. But that set is seen, and that its order changes from block to
/// block, after the same calls.
#[test]
fn equal_chunks() {
    let mut handed_out_first = HashSet::new();
    for _ in 0..64 {
        let (mut theirs, mut words) = placed_and_freed(3, &[2, 3, 1], &[2, 1]);
        let first = theirs.free_chunks.iter().next().expect("two are free");
        handed_out_first.insert(theirs.chunks[first].offset);

        // with the patch, and here, it is the one at the lower address
        let placed = rust::allocate(&mut theirs, A_BYTE);
        assert_eq!(placed.expect("two are free"), (0, 2));
        let ours = asked(&mut words, Call::Allocate(A_BYTE));
        assert_eq!((ours.number, ours.offset, ours.id), (0, 0, 2));
    }
    assert_eq!(handed_out_first, HashSet::from([0, 2]));
}

#[test]
fn the_order_of_a_report() {
    let mut reported_first = HashSet::new();
    for _ in 0..64 {
        let (theirs, mut words) = placed_and_freed(2, &[2, 1], &[]);
        reported_first.insert(theirs.report_allocations()[0].offset);

        let ours = Block::over(&mut words);
        let leaks = ours.leaks().expect("the table is sound");
        assert!(leaks.map(|leak| leak.first_byte).eq([0, 1]));
    }
    assert_eq!(reported_first, HashSet::from([0, 1]));
}

#[test]
fn dedicated_blocks_of_no_bytes() {
    let nothing = Request { size: 0, ..A_BYTE };
    let mut theirs = DedicatedBlockAllocator::new(0);
    for _ in 0..2 {
        let placed = rust::allocate(&mut theirs, nothing);
        assert_eq!(placed.expect("it is empty when occupied"), (0, 1));
    }

    let mut record = [7; 3];
    assert_eq!(ffi::dedicated_new(&mut record, 0), 13);
    assert_eq!(record, [7; 3]);
}

/// Fails unless a dedicated block of 1 byte refuses the request with this number, and changes no word.
fn assert_dedicated_refuses(record: ffi::Record, request: Request, number: u64) {
    let mut words = record;
    let answer = dedicated::asked(&mut words, dedicated::Call::Allocate(request));
    assert_eq!(answer, dedicated::Answer::plain(number));
    assert_eq!(words, record);
}

#[test]
fn a_size_of_0_in_a_dedicated_block() {
    let nothing = Request { size: 0, ..A_BYTE };
    let mut theirs = DedicatedBlockAllocator::new(1);
    let answer = rust::allocate(&mut theirs, nothing);
    assert!(matches!(answer, Err(AllocationError::Internal(_))));
    rust::allocate(&mut theirs, A_BYTE).expect("it is empty");
    let answer = rust::allocate(&mut theirs, nothing);
    assert!(matches!(answer, Err(AllocationError::OutOfMemory)));

    assert_dedicated_refuses([1, 0, 0], nothing, 3);
    assert_dedicated_refuses([1, 1, 0], nothing, 3);
}

#[test]
fn requests_that_a_dedicated_block_does_not_look_at() {
    let aligned = |alignment| Request {
        alignment,
        ..A_BYTE
    };
    let paged = |granularity| Request {
        granularity,
        ..A_BYTE
    };
    for (request, number) in [
        (aligned(0), 4),
        (aligned(3), 4),
        (paged(0), 5),
        (paged(3), 5),
        (Request { kind: 0, ..A_BYTE }, 6),
    ] {
        let placed = rust::allocate(&mut DedicatedBlockAllocator::new(1), request);
        assert_eq!(placed.expect("only the size counts"), (0, 1));

        assert_dedicated_refuses([1, 0, 0], request, number);
    }
}

#[test]
fn a_dedicated_block_that_is_allocated_in_part() {
    let mut theirs = DedicatedBlockAllocator::new(2);
    theirs.allocated = 1;
    assert_eq!(theirs.allocated(), 1);
    assert_eq!(rust::reported(&theirs)[0].2, 2);

    let ours = Dedicated::from_words([2, 1, 0]);
    assert_eq!(number(ours.allocated()), Some(2));
    assert_eq!(number(ours.report_allocations()), Some(2));
}
