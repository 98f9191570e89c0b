//! The oracle itself: laid out, patched and checked as the comparisons rely on.

use lunkaseyo_compare::rust::{self, AllocationError, Request, SubAllocator};

/// A linear request that needs no alignment and no page rule.
fn plain(size: u64) -> Request {
    Request {
        size,
        alignment: 1,
        kind: 1,
        granularity: 1,
        label: 0,
    }
}

#[test]
#[should_panic(expected = "overflow")]
fn sums_that_overflow_are_seen() {
    // the sum alone would go on with a wrong answer
    std::hint::black_box(rust::align_up(u64::MAX, std::hint::black_box(2)));
}

#[test]
fn a_free_list_block_follows_the_checked_steps() {
    enum Step {
        Place(Request, (u64, u64)),
        Free(u64),
    }
    use Step::{Free, Place};
    let request = |kind, size, alignment| Request {
        size,
        alignment,
        kind,
        granularity: 1024,
        label: 0,
    };
    let steps = [
        (Place(request(1, 100, 1), (0, 2)), 100),
        (Place(request(2, 256, 64), (1024, 3)), 1280),
        (Place(request(1, 16, 16), (2048, 4)), 2064),
        (Free(2), 1964),
        (Place(request(1, 16, 1), (2064, 5)), 1980),
        (Place(request(2, 100, 1), (0, 2)), 2080),
        (Free(3), 900),
        (Free(2), 800),
    ];
    let mut block = rust::FreeListAllocator::new(4096);
    for (step, allocated) in steps {
        match step {
            Place(request, placed) => {
                let answer = rust::allocate(&mut block, request);
                assert_eq!(answer.expect("there is room"), placed);
            }
            Free(id) => rust::free(&mut block, id).expect("the id is live"),
        }
        assert_eq!(block.allocated(), allocated);
    }
}

#[test]
fn equal_chunks_go_by_address() {
    // Each block has hash tables of its own, which hand out free chunks in an order of their own.
    for _ in 0..64 {
        let mut block = rust::FreeListAllocator::new(64);
        let placed: Vec<(u64, u64)> = (0..8)
            .map(|_| rust::allocate(&mut block, plain(8)).expect("there is room"))
            .collect();
        for &(_, id) in placed.iter().rev().step_by(2) {
            rust::free(&mut block, id).expect("the id is live");
        }
        let (offset, _) = rust::allocate(&mut block, plain(8)).expect("four holes of 8");
        assert_eq!(offset, 8);
    }
}

#[test]
fn a_dedicated_block_takes_its_own_size_once() {
    let mut block = rust::DedicatedBlockAllocator::new(4096);
    let other = rust::allocate(&mut block, plain(4095));
    assert!(matches!(other, Err(AllocationError::Internal(_))));
    let placed = rust::allocate(&mut block, plain(4096));
    assert_eq!(placed.expect("the block is empty"), (0, 1));
    let again = rust::allocate(&mut block, plain(4096));
    assert!(matches!(again, Err(AllocationError::OutOfMemory)));
    rust::free(&mut block, 1).expect("the id is 1");
    assert!(block.is_empty());
}

#[test]
fn sizes_text_and_pages_are_open() {
    let sizes = rust::AllocationSizes::new(0, 5 << 20);
    assert_eq!(rust::words(sizes), [4 << 20, 4 << 20, 8 << 20, 8 << 20]);
    assert_eq!(rust::fmt_bytes(1152), "1.12 KB");
    assert_eq!(rust::align_down(1023, 512), 512);
    assert_eq!(rust::align_up(1023, 512), 1024);
    assert!(rust::is_on_same_page(0, 1, 1023, 1024));
    assert!(rust::has_granularity_conflict(rust::kind(1), rust::kind(2)));
}
