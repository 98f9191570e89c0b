//! Worked examples of the leak walk, through the safe wrapper.

use lunkaseyo::{ffi, Block, Kind, Leak, Refusal, Request};

/// What out-values hold before a call.
const SPOILT: u64 = 0xA5A5_A5A5_A5A5_A5A5;

/// Three chunks, by address in the slots 3, 1 and 2: linear 100 with label 7, free 28, and the rest of 1024
/// bytes as non-linear under id 9 and no label. One slot is empty.
#[rustfmt::skip]
const TABLE: [u64; Block::words(4)] = [
    1024, 996, 12, 3,
    5, 28, 100, 0, 0, 2, 3,
    9, 896, 128, 2, 0, 0, 1,
    2, 100, 0, 1, 7, 1, 0,
    0, 0, 0, 0, 0, 0, 0,
];

const FIRST: Leak = Leak {
    id: 2,
    first_byte: 0,
    size: 100,
    kind: Kind::Linear,
    label: 7,
};

const SECOND: Leak = Leak {
    id: 9,
    first_byte: 128,
    size: 896,
    kind: Kind::NonLinear,
    label: 0,
};

fn number<T: std::fmt::Debug>(answer: Result<T, Refusal>) -> u64 {
    answer.expect_err("this call is to be refused").number()
}

/// The number, what is handed out, and the place after it.
fn step(words: &[u64], place: u64) -> (u64, [u64; 5], u64) {
    let (mut place, mut leak) = (place, [SPOILT; 5]);
    let number = ffi::leaks_step(words, &mut place, &mut leak);
    (number, leak, place)
}

/// What a whole walk hands out, cut short where it is longer than there are slots.
fn walked(block: &Block) -> Vec<Leak> {
    let leaks = block.leaks().expect("the table is sound");
    leaks.take(9).collect()
}

#[test]
fn live_chunks_come_by_rising_address() {
    let mut words = TABLE;
    let block = Block::over(&mut words);
    let mut leaks = block.leaks().expect("the table is sound");
    assert_eq!(leaks.next(), Some(FIRST));
    // a copy of the walk goes its own way
    assert_eq!(leaks.clone().next(), Some(SECOND));
    assert_eq!(leaks.next(), Some(SECOND));
    for _ in 0..3 {
        assert_eq!(leaks.next(), None);
    }
    assert_eq!(words, TABLE);
}

#[test]
fn padding_belongs_to_the_chunk_behind_it() {
    let mut words = [0; Block::words(3)];
    let mut block = Block::new(&mut words, 64).expect("a table of 3 slots");
    let request = Request {
        size: 1,
        alignment: 16,
        kind: Kind::Linear,
        granularity: 1,
        label: 3,
    };
    for offset in [0, 16] {
        assert_eq!(
            block.allocate(request).map(|place| place.offset),
            Ok(offset)
        );
    }
    let ranges: Vec<_> = walked(&block)
        .into_iter()
        .map(|leak| (leak.first_byte, leak.size))
        .collect();
    assert_eq!(ranges, [(0, 1), (1, 16)]);
}

#[test]
fn numbers_are_whole_words() {
    let mut words = [0; Block::words(2)];
    Block::new(&mut words, 1 << 40).expect("a table of 2 slots");
    // by hand, because so many calls would take too long
    words[2] = u64::MAX - 1;
    let mut block = Block::over(&mut words);
    let request = Request {
        size: 1 << 33,
        alignment: 1,
        kind: Kind::Linear,
        granularity: 1,
        label: u64::MAX,
    };
    let rest = Request {
        size: (1 << 40) - (1 << 33),
        label: 1 << 63,
        ..request
    };
    block.allocate(request).expect("there is room");
    block.allocate(rest).expect("there is room");
    let numbers = |leak: Leak| [leak.id, leak.first_byte, leak.size, leak.label];
    let walked: Vec<_> = walked(&block).into_iter().map(numbers).collect();
    let first = [u64::MAX - 1, 0, 1 << 33, u64::MAX];
    assert_eq!(walked, [first, [1, 1 << 33, rest.size, 1 << 63]]);
}

#[test]
fn nothing_is_left_of_a_block_that_is_given_back() {
    let mut words = TABLE;
    let mut block = Block::over(&mut words);
    assert_eq!(walked(&block), [FIRST, SECOND]);
    assert_eq!(block.free(FIRST.id), Ok(()));
    assert_eq!(walked(&block), [SECOND]);
    assert_eq!(block.free(SECOND.id), Ok(()));
    assert_eq!(walked(&block), []);
    assert_eq!(block.is_empty(), Ok(true));
}

#[test]
fn every_number_is_a_place() {
    let first = [2, 0, 100, 1, 7];
    let second = [9, 128, 896, 2, 0];
    for (places, leak, after) in [
        (vec![0], first, 100),
        (vec![1, 99, 100, 101, 127, 128], second, 1024),
    ] {
        for place in places {
            assert_eq!(step(&TABLE, place), (0, leak, after), "from {place}");
        }
    }
    // the end, where the place stays
    for place in [129, 1023, 1024, 1025, 1 << 63, u64::MAX] {
        assert_eq!(step(&TABLE, place), (0, [0; 5], place), "from {place}");
    }
}

#[test]
fn a_walk_starts_at_0() {
    let mut place = SPOILT;
    assert_eq!(ffi::leaks_start(&TABLE, &mut place), 0);
    assert_eq!(place, 0);
}

#[test]
fn words_that_are_refused() {
    let mut unsound = TABLE;
    unsound[1] = 5;
    for (words, refusal) in [
        (&TABLE[..10], 1),
        (&[], 1),
        (&unsound[..], 2),
        (&TABLE[..11], 2),
    ] {
        let mut place = SPOILT;
        assert_eq!(ffi::leaks_start(words, &mut place), refusal);
        assert_eq!(place, 0);
        for place in [0, 128, u64::MAX] {
            assert_eq!(step(words, place), (refusal, [0; 5], place));
        }
        let mut words = words.to_vec();
        assert_eq!(number(Block::over(&mut words).leaks()), refusal);
    }
}

#[test]
fn a_table_may_change_between_two_steps() {
    let mut words = TABLE;
    let (_, _, place) = step(&words, 0);
    assert_eq!(place, 100);

    // it is not sound for a while, and the place stays
    words[1] = 5;
    assert_eq!(step(&words, place), (2, [0; 5], place));
    words[1] = TABLE[1];
    assert_eq!(step(&words, place), (0, [9, 128, 896, 2, 0], 1024));

    // the rest is given back, and the first byte after the place is taken
    let mut block = Block::over(&mut words);
    block.free(9).expect("the id is live");
    let byte = Request {
        size: 1,
        alignment: 1,
        kind: Kind::Linear,
        granularity: 1,
        label: 4,
    };
    let id = block.allocate(byte).expect("there is room").id;
    assert_eq!(step(&words, place), (0, [id, 100, 1, 1, 4], 101));
}
