//! Worked examples of dedicated blocks, through the safe wrapper.

use lunkaseyo::{ffi, Allocation, Dedicated, Kind, Refusal, Report, Request};

/// All of a block of 4096 bytes.
const ALL: Request = Request {
    size: 4096,
    alignment: 64,
    kind: Kind::Linear,
    granularity: 1024,
    label: 7,
};

fn number<T: std::fmt::Debug>(answer: Result<T, Refusal>) -> u64 {
    answer.expect_err("this call is to be refused").number()
}

fn new(size: u64) -> Dedicated {
    Dedicated::new(size).expect("the size is not 0")
}

/// Fails unless the block is sound and has these words, and its questions answer by them.
fn assert_is(block: &Dedicated, [size, allocated, label]: [u64; 3]) {
    assert_eq!(block.as_words(), &[size, allocated, label]);
    assert_eq!(block.allocated(), Ok(allocated));
    assert_eq!(block.is_empty(), Ok(allocated == 0));
    let report = Report {
        first_byte: 0,
        size,
        label,
    };
    assert_eq!(block.report_allocations(), Ok(report));
}

#[test]
fn a_block_has_1_to_2_64_minus_1_bytes() {
    for size in [1, 4096, (1 << 40) + 1, u64::MAX] {
        assert_is(&new(size), [size, 0, 0]);
    }
    assert_eq!(number(Dedicated::new(0)), 13);

    let mut record = [7; 3];
    assert_eq!(ffi::dedicated_new(&mut record, 0), 13);
    assert_eq!(record, [7; 3]);
    assert_eq!(ffi::dedicated_new(&mut record, 5), 0);
    assert_eq!(record, [5, 0, 0]);
}

#[test]
fn it_is_taken_whole_and_given_back() {
    let mut block = new(4096);
    let place = Allocation { offset: 0, id: 1 };
    assert_eq!(block.allocate(ALL), Ok(place));
    assert_is(&block, [4096, 4096, 7]);

    assert_eq!(block.free(1), Ok(()));
    assert_is(&block, [4096, 0, 7]);
    // when it is empty too
    assert_eq!(block.free(1), Ok(()));
    assert_is(&block, [4096, 0, 7]);

    let image = Request {
        kind: Kind::NonLinear,
        alignment: 1 << 63,
        granularity: 1 << 63,
        label: 0,
        ..ALL
    };
    assert_eq!(block.allocate(image), Ok(place));
    assert_is(&block, [4096, 4096, 0]);
}

#[test]
fn it_is_renamed_empty_or_not() {
    let mut block = new(4096);
    assert_eq!(block.rename_allocation(1, 8), Ok(()));
    assert_is(&block, [4096, 0, 8]);
    assert_eq!(block.allocate(ALL).map(|place| place.id), Ok(1));
    assert_eq!(block.rename_allocation(1, u64::MAX), Ok(()));
    assert_is(&block, [4096, 4096, u64::MAX]);
}

#[test]
fn requests_that_are_refused() {
    let sized = |size| Request { size, ..ALL };
    let mut block = new(4096);
    for size in [1, 4095, 4097, u64::MAX] {
        assert_eq!(number(block.allocate(sized(size))), 12);
    }
    let faulty = Request {
        alignment: 3,
        granularity: 3,
        ..sized(4095)
    };
    let occupied = [4096, 4096, 5];
    let mut taken = Dedicated::from_words(occupied);
    // each with every fault that comes after it
    for (request, refusal) in [
        (Request { size: 0, ..faulty }, 3),
        (faulty, 4),
        (
            Request {
                alignment: 1,
                ..faulty
            },
            5,
        ),
        (sized(4095), 11),
        (ALL, 11),
    ] {
        assert_eq!(number(taken.allocate(request)), refusal);
    }
    assert_is(&block, [4096, 0, 0]);
    assert_is(&taken, occupied);
}

#[test]
fn a_kind_is_a_whole_number() {
    for (kind, refusal) in [(0, 6), (1, 0), (2, 0), (3, 6), (257, 6), (1 << 32 | 1, 6)] {
        let (mut offset, mut id) = (5, 5);
        let mut record = [16, 0, 9];
        let request = [16, 1, kind, 1, 4];
        let number = ffi::dedicated_allocate(&mut record, request, &mut offset, &mut id);
        assert_eq!(number, refusal, "kind {kind}");
        let (after, placed) = match refusal {
            0 => ([16, 16, 4], (0, 1)),
            _ => ([16, 0, 9], (0, 0)),
        };
        assert_eq!((record, (offset, id)), (after, placed), "kind {kind}");
    }
}

#[test]
fn the_id_is_1() {
    for words in [[4096, 4096, 7], [4096, 0, 7]] {
        let mut block = Dedicated::from_words(words);
        for id in [0, 2, 1 << 32 | 1, u64::MAX] {
            assert_eq!(number(block.free(id)), 18, "id {id}");
            assert_eq!(number(block.rename_allocation(id, 5)), 18, "id {id}");
        }
        assert_is(&block, words);
    }
}

#[test]
fn a_record_that_is_not_sound_is_refusal_2() {
    for words in [[0, 0, 0], [0, 1, 7], [2, 1, 7], [2, 3, 0], [u64::MAX, 1, 0]] {
        let mut block = Dedicated::from_words(words);
        assert_eq!(number(block.allocated()), 2);
        assert_eq!(number(block.is_empty()), 2);
        assert_eq!(number(block.report_allocations()), 2);
        // looked at before the call's own faults
        assert_eq!(number(block.allocate(Request { size: 0, ..ALL })), 2);
        assert_eq!(number(block.free(0)), 2);
        assert_eq!(number(block.rename_allocation(0, 5)), 2);
        assert_eq!(block.as_words(), &words);
    }
}

#[test]
fn refusals_say_why() {
    let mut block = Dedicated::from_words([4096, 4096, 0]);
    let occupied = block.allocate(ALL).unwrap_err();
    let id = block.free(2).unwrap_err();
    let size = new(4095).allocate(ALL).unwrap_err();
    let unsound = Dedicated::from_words([0; 3]).is_empty().unwrap_err();
    for (refusal, why) in [
        (occupied, "refusal 11: the dedicated block is occupied"),
        (
            size,
            "refusal 12: the size is not that of the dedicated block",
        ),
        (
            id,
            "refusal 18: the id is not 1, the only one of a dedicated block",
        ),
        (
            unsound,
            "refusal 2: the chunk table, or the record of a dedicated block, is not sound",
        ),
    ] {
        assert_eq!(refusal.to_string(), why);
    }
}
