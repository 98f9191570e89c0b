//! The worked examples of blocks, block sizes and byte text, through the safe wrapper. They need no
//! Rust to compare with.

use lunkaseyo::{
    byte_text, ffi, fmt_bytes, Allocation, AllocationSizes, Block, Kind, Refusal, Request,
};

const MB: u64 = 1024 * 1024;

fn number<T: std::fmt::Debug>(answer: Result<T, Refusal>) -> u64 {
    answer.expect_err("this call is to be refused").number()
}

#[test]
fn a_given_size_is_clamped_and_rounded_up() {
    for (given, size) in [(5 * MB, 8 * MB), (257 * MB, 256 * MB), (0, 4 * MB)] {
        let expected = AllocationSizes::from([size; 4]);
        assert_eq!(AllocationSizes::new(given, given), expected);
    }
}

#[test]
fn device_and_host_do_not_mix() {
    let sizes = AllocationSizes::new(8 * MB, 16 * MB);
    let device = sizes.with_max_device_memblock_size(32 * MB);
    assert_eq!(
        device.map(<[u64; 4]>::from),
        Ok([8 * MB, 32 * MB, 16 * MB, 16 * MB])
    );
    let host = sizes.with_max_host_memblock_size(64 * MB);
    assert_eq!(
        host.map(<[u64; 4]>::from),
        Ok([8 * MB, 8 * MB, 16 * MB, 64 * MB])
    );
}

#[test]
fn the_default_is_256_and_64() {
    let expected = [256 * MB, 256 * MB, 64 * MB, 64 * MB];
    assert_eq!(<[u64; 4]>::from(AllocationSizes::default()), expected);
}

#[test]
fn blocks_grow_to_the_maximum() {
    let sizes = AllocationSizes::new(8 * MB, 4 * MB)
        .with_max_device_memblock_size(256 * MB)
        .expect("new sizes are sound");
    for (count, size) in [(0, 8 * MB), (5, 256 * MB), (9, 256 * MB)] {
        assert_eq!(sizes.get_memblock_size(false, count), Ok(size));
        assert_eq!(sizes.get_memblock_size(true, count), Ok(4 * MB));
    }
}

#[test]
fn sizes_outside_the_rules_are_refusal_14() {
    let odd = AllocationSizes {
        min_host_memblock_size: 5 * MB,
        ..AllocationSizes::default()
    };
    assert_eq!(number(odd.with_max_device_memblock_size(8 * MB)), 14);
    assert_eq!(number(odd.with_max_host_memblock_size(8 * MB)), 14);
    assert_eq!(number(odd.get_memblock_size(false, 0)), 14);
}

#[test]
fn texts() {
    for (amount, text) in [
        (0, "0.00 B"),
        (1023, "1023.00 B"),
        (1152, "1.12 KB"), // a tie: the even digit
        (1408, "1.38 KB"), // a tie, upwards
        (1536, "1.50 KB"),
        (1048575, "1024.00 KB"),
        (1 << 20, "1.00 MB"),
        (1 << 30, "1.00 GB"),
        (1 << 40, "1.00 TB"),
        ((1 << 50) - 1, "1024.00 TB"),
    ] {
        let answer = byte_text(amount).expect("below 2^50");
        assert_eq!(answer.as_str(), text);
        assert_eq!(answer.to_string(), text);
    }
}

#[test]
fn the_rest_of_the_buffer_is_kept() {
    let mut buf = *b"############";
    assert_eq!(fmt_bytes(1152, &mut buf), Ok(7));
    assert_eq!(&buf, b"1.12 KB#####");
}

#[test]
fn texts_that_are_refused() {
    let mut buf = *b"######";
    assert_eq!(number(fmt_bytes(1 << 50, &mut buf)), 15);
    assert_eq!(number(fmt_bytes(1 << 50, &mut [])), 15);
    assert_eq!(number(fmt_bytes(1152, &mut buf)), 16);
    assert_eq!(&buf, b"######");
    assert_eq!(number(byte_text(1 << 50)), 15);
}

/// The words of a table of 8 slots, of which these are the first.
fn table(words: &[u64]) -> [u64; Block::words(8)] {
    let mut table = [0; Block::words(8)];
    table[..words.len()].copy_from_slice(words);
    table
}

/// A block of 4096 bytes after linear 100 with label 7 and non-linear 256 with label 8, where a page
/// has 1024 bytes: the second is put at 1024, behind 924 bytes of padding.
#[rustfmt::skip]
fn two_placed() -> [u64; Block::words(8)] {
    table(&[
        4096, 1280, 4, 2,
        1, 2816, 1280, 0, 0, 0, 3,
        2, 100, 0, 1, 7, 3, 0,
        3, 1180, 100, 2, 8, 1, 2,
    ])
}

#[test]
fn a_fresh_table_has_one_free_chunk() {
    let mut words = [u64::MAX; Block::words(8)];
    let block = Block::new(&mut words, 4096).expect("a table of 8 slots");
    assert_eq!(block.allocated(), Ok(0));
    assert_eq!(block.is_empty(), Ok(true));
    let fresh = table(&[4096, 0, 2, 1, 1, 4096]);
    assert_eq!(block.as_words(), fresh);
    assert_eq!(words, fresh);
}

#[test]
fn a_block_has_1_to_2_40_bytes() {
    let mut words = [7; Block::words(1)];
    for size in [0, (1 << 40) + 1, u64::MAX] {
        assert_eq!(number(Block::new(&mut words, size)), 13);
        assert_eq!(words, [7; 11]);
    }
    for size in [1, 1 << 40] {
        assert!(Block::new(&mut words, size).is_ok());
        assert_eq!(words, [size, 0, 2, 1, 1, size, 0, 0, 0, 0, 0]);
    }
}

#[test]
fn a_table_has_1_to_512_slots() {
    for count in [0, 1, 4, 10, 12, 3587, 3589, Block::words(513)] {
        let mut words = vec![7; count];
        // looked at before the size
        assert_eq!(number(Block::new(&mut words, 0)), 1);
        assert_eq!(number(Block::new(&mut words, 4096)), 1);
        assert_eq!(number(Block::over(&mut words).allocated()), 1);
        assert_eq!(number(Block::over(&mut words).is_empty()), 1);
        assert!(words.iter().all(|&word| word == 7));
    }
    for slots in [1, 2, 511, 512] {
        let mut words = vec![7; Block::words(slots)];
        let block = Block::new(&mut words, 4096).expect("1 to 512 slots");
        assert_eq!(block.is_empty(), Ok(true));
    }
}

#[test]
fn padding_is_allocated() {
    let mut words = two_placed();
    let block = Block::over(&mut words);
    assert_eq!(block.allocated(), Ok(1280));
    assert_eq!(block.is_empty(), Ok(false));
}

#[test]
fn a_wrong_word_is_refusal_2() {
    // the next id, and the labels of the two live chunks: 5000 is as good there as any
    let free_to_choose = [2, 4 + 7 + 4, 4 + 14 + 4];
    for place in 0..Block::words(8) {
        let mut words = two_placed();
        words[place] = 5000;
        let answer = Block::over(&mut words).allocated();
        if free_to_choose.contains(&place) {
            assert_eq!(answer, Ok(1280), "word {place}");
        } else {
            assert_eq!(number(answer), 2, "word {place}");
        }
    }
}

#[test]
fn words_that_are_no_table_are_refusal_2() {
    for word in [0, 1, 7, u64::MAX] {
        let mut words = [word; Block::words(8)];
        assert_eq!(number(Block::over(&mut words).allocated()), 2);
        assert_eq!(number(Block::over(&mut words).is_empty()), 2);
        assert_eq!(words, [word; Block::words(8)]);
    }
}

/// A byte for a buffer, anywhere.
const A_BYTE: Request = Request {
    size: 1,
    alignment: 1,
    kind: Kind::Linear,
    granularity: 1,
    label: 0,
};

#[test]
fn the_checked_steps() {
    enum Step {
        Place(Kind, u64, u64, Allocation),
        Free(u64),
    }
    use Kind::{Linear, NonLinear};
    use Step::{Free, Place};
    let at = |offset, id| Allocation { offset, id };
    let steps = [
        (Place(Linear, 100, 1, at(0, 2)), 100),
        // 924 bytes of padding
        (Place(NonLinear, 256, 64, at(1024, 3)), 1280),
        (Place(Linear, 16, 16, at(2048, 4)), 2064),
        (Free(2), 1964),
        // the hole at 0 meets the padding of id 3
        (Place(Linear, 16, 1, at(2064, 5)), 1980),
        (Place(NonLinear, 100, 1, at(0, 2)), 2080),
        (Free(3), 900),
        // merged to 0..1280
        (Free(2), 800),
    ];
    let request = |kind, size, alignment| Request {
        size,
        alignment,
        kind,
        granularity: 1024,
        label: 0,
    };
    let mut words = [0; Block::words(8)];
    let mut block = Block::new(&mut words, 4096).expect("a table of 8 slots");
    for (step, allocated) in steps {
        match step {
            Place(kind, size, alignment, place) => {
                let answer = block.allocate(request(kind, size, alignment));
                assert_eq!(answer, Ok(place));
            }
            Free(id) => assert_eq!(block.free(id), Ok(())),
        }
        assert_eq!(block.allocated(), Ok(allocated));
    }
    let before = block.as_words().to_vec();
    assert_eq!(number(block.free(2)), 10);
    assert_eq!(number(block.allocate(request(Linear, 0, 1))), 3);
    assert_eq!(number(block.allocate(request(Linear, 16, 0))), 4);
    assert_eq!(number(block.allocate(request(Linear, 16, 3))), 4);
    assert_eq!(block.as_words(), before);
}

#[test]
#[rustfmt::skip]
fn calls_write_the_table() {
    let mut words = [0; Block::words(8)];
    let mut block = Block::new(&mut words, 4096).expect("a table of 8 slots");
    let buffer = Request { size: 100, granularity: 1024, label: 7, ..A_BYTE };
    let image = Request { size: 256, alignment: 64, kind: Kind::NonLinear, label: 8, ..buffer };
    assert_eq!(block.allocate(buffer), Ok(Allocation { offset: 0, id: 2 }));
    assert_eq!(block.allocate(image), Ok(Allocation { offset: 1024, id: 3 }));
    assert_eq!(block.as_words(), two_placed());

    assert_eq!(block.rename_allocation(3, u64::MAX), Ok(()));
    assert_eq!(block.free(2), Ok(()));
    assert_eq!(block.as_words(), table(&[
        4096, 1180, 4, 2,
        1, 2816, 1280, 0, 0, 0, 3,
        2, 100, 0, 0, 0, 3, 0,
        3, 1180, 100, 2, u64::MAX, 1, 2,
    ]));

    // the left id and slot survive, and the others are empty
    assert_eq!(block.free(3), Ok(()));
    assert_eq!(block.as_words(), table(&[
        4096, 0, 4, 2,
        0, 0, 0, 0, 0, 0, 0,
        2, 4096, 0, 0, 0, 0, 0,
    ]));

    // the lowest empty slot is the first to be taken
    let labelled = Request { label: 1 << 63, ..A_BYTE };
    assert_eq!(block.allocate(labelled), Ok(Allocation { offset: 0, id: 4 }));
    assert_eq!(block.as_words(), table(&[
        4096, 1, 5, 1,
        4, 1, 0, 1, 1 << 63, 2, 0,
        2, 4095, 1, 0, 0, 0, 1,
    ]));
}

/// Fills the front of a block with linear bytes, and gives every other chunk back, the first among them.
fn with_holes(block: &mut Block, sizes: &[u64]) {
    let place = |size: &u64| {
        let sized = Request {
            size: *size,
            ..A_BYTE
        };
        block.allocate(sized).expect("there is room").id
    };
    let ids: Vec<u64> = sizes.iter().map(place).collect();
    for &id in ids.iter().step_by(2) {
        assert_eq!(block.free(id), Ok(()));
    }
}

#[test]
fn the_smallest_chunk_is_taken_and_of_equals_the_lowest() {
    let mut words = [0; Block::words(8)];
    let mut block = Block::new(&mut words, 100).expect("a table of 8 slots");
    with_holes(&mut block, &[30, 1, 10, 1, 10, 1]);
    let ten = Request { size: 10, ..A_BYTE };
    for offset in [31, 42, 0] {
        assert_eq!(block.allocate(ten).map(|place| place.offset), Ok(offset));
    }
}

#[test]
fn the_smallest_chunk_is_so_with_its_padding() {
    let mut words = [0; Block::words(8)];
    let mut block = Block::new(&mut words, 100).expect("a table of 8 slots");
    with_holes(&mut block, &[5, 9, 6, 1]);
    // it leaves a byte of the 5 at 0, and would leave none of the 6 at 14
    let aligned = Request {
        size: 4,
        alignment: 8,
        ..A_BYTE
    };
    assert_eq!(block.allocate(aligned).map(|place| place.offset), Ok(0));
}

#[test]
fn the_last_byte_is_counted_from_the_offset() {
    let mut words = [0; Block::words(8)];
    let mut block = Block::new(&mut words, 64).expect("a table of 8 slots");
    let image = |size, alignment, granularity| Request {
        size,
        alignment,
        kind: Kind::NonLinear,
        granularity,
        label: 0,
    };
    let buffer = Request { size: 8, ..A_BYTE };
    for request in [image(1, 1, 1), image(23, 1, 1), buffer] {
        block.allocate(request).expect("there is room");
    }
    // a hole from 1 to 24, and the buffer behind it
    assert_eq!(block.free(3), Ok(()));
    // from 8 on, 12 bytes reach the buffer's page, which they would not from 1 on
    let place = block.allocate(image(12, 8, 16)).map(|place| place.offset);
    assert_eq!(place, Ok(32));
}

#[test]
fn a_block_can_be_filled_at_once() {
    let mut words = [0; Block::words(8)];
    let mut block = Block::new(&mut words, 4096).expect("a table of 8 slots");
    let sized = |size| Request { size, ..A_BYTE };
    for size in [4097, u64::MAX] {
        assert_eq!(number(block.allocate(sized(size))), 7);
    }
    assert_eq!(
        block.allocate(sized(4096)),
        Ok(Allocation { offset: 0, id: 1 })
    );
    assert_eq!(number(block.allocate(A_BYTE)), 7);
}

#[test]
fn one_slot_cannot_be_split() {
    let mut words = [0; Block::words(1)];
    let mut block = Block::new(&mut words, 4096).expect("a table of 1 slot");
    assert_eq!(number(block.allocate(A_BYTE)), 9);
    let all = Request {
        size: 4096,
        ..A_BYTE
    };
    assert_eq!(block.allocate(all), Ok(Allocation { offset: 0, id: 1 }));
}

#[test]
fn the_last_id_is_2_64_minus_2() {
    let mut words = [0; Block::words(2)];
    Block::new(&mut words, 4096).expect("a table of 2 slots");
    // by hand, because so many calls would take too long
    words[2] = u64::MAX - 1;
    let mut block = Block::over(&mut words);
    let last = Allocation {
        offset: 0,
        id: u64::MAX - 1,
    };
    assert_eq!(block.allocate(A_BYTE), Ok(last));
    // no slot is empty either, and the id is looked at first
    assert_eq!(number(block.allocate(A_BYTE)), 8);
    let rest = Request {
        size: 4095,
        ..A_BYTE
    };
    assert_eq!(block.allocate(rest), Ok(Allocation { offset: 1, id: 1 }));
}

#[test]
fn a_kind_is_a_whole_number() {
    let mut words = two_placed();
    for (kind, refusal) in [(0, 6), (1, 0), (2, 0), (3, 6), (257, 6), (1 << 32 | 1, 6)] {
        let (mut offset, mut id) = (5, 5);
        let request = [16, 1, kind, 1, 0];
        let number = ffi::block_allocate(&mut words, request, &mut offset, &mut id);
        assert_eq!(number, refusal, "kind {kind}");
        assert_eq!(refusal != 0, (offset, id) == (0, 0), "kind {kind}");
    }
}

#[test]
fn only_live_ids_are_known() {
    let mut words = two_placed();
    let mut block = Block::over(&mut words);
    // a free chunk's, none at all, not handed out yet
    for id in [1, 0, 4, u64::MAX] {
        assert_eq!(number(block.free(id)), 10, "id {id}");
        assert_eq!(number(block.rename_allocation(id, 5)), 10, "id {id}");
    }
    assert_eq!(words, two_placed());
}

#[test]
fn calls_look_at_the_table_first() {
    for (count, refusal) in [(10, 1), (11, 2)] {
        let mut words = vec![7; count];
        let mut block = Block::over(&mut words);
        let nothing = Request { size: 0, ..A_BYTE };
        assert_eq!(number(block.allocate(nothing)), refusal);
        assert_eq!(number(block.free(0)), refusal);
        assert_eq!(number(block.rename_allocation(0, 0)), refusal);
        assert!(words.iter().all(|&word| word == 7));
    }
}

#[test]
fn refusals_say_why() {
    let text = fmt_bytes(0, &mut []).unwrap_err();
    let count = Block::new(&mut [], 4096).unwrap_err();
    let size = Block::new(&mut [0; 11], 0).unwrap_err();
    let unsound = Block::over(&mut [0; 11]).is_empty().unwrap_err();
    let dead = Block::over(&mut two_placed()).free(1).unwrap_err();
    for (refusal, why) in [
        (text, "refusal 16: the buffer is too short for the text"),
        (
            count,
            "refusal 1: the number of words is not 4 + 7s for any s from 1 to 512 slots",
        ),
        (
            size,
            "refusal 13: the block size is 0, or above 2^40 for a free-list block",
        ),
        (
            unsound,
            "refusal 2: the chunk table, or the record of a dedicated block, is not sound",
        ),
        (dead, "refusal 10: no live chunk has this id"),
    ] {
        assert_eq!(refusal.to_string(), why);
    }
}
