//! New blocks: the answer and every word, for every word count up to that of 515 slots.

use lunkaseyo::{ffi, Block};
use lunkaseyo_compare::random::Random;
use lunkaseyo_compare::reading::{read, Reading};
use lunkaseyo_compare::table::{slot_count, word_count, LARGEST_BLOCK, MOST_SLOTS};
use lunkaseyo_compare::tracked::Tracked;

/// Words before and behind those that are lent, which are to be left alone.
const MARGIN: usize = 16;

/// The words after a call that is accepted: the Rust's new block, written as a table.
fn fresh(size: u64, slots: usize) -> Vec<u64> {
    Tracked::new(size, slots).table().words()
}

/// Sizes at the limits, and some of any magnitude.
fn sizes(random: &mut Random) -> Vec<u64> {
    let mut sizes = vec![0, 1, 2, LARGEST_BLOCK - 1, LARGEST_BLOCK];
    sizes.extend([LARGEST_BLOCK + 1, 1 << 63, u64::MAX]);
    sizes.extend([(); 2].map(|()| random.up_to_bits(40)));
    sizes.extend([(); 2].map(|()| random.up_to_bits(64)));
    sizes
}

/// Makes a block in `count` words that hold anything.
fn compare(count: usize, size: u64, random: &mut Random) {
    let old: Vec<u64> = (0..MARGIN + count + MARGIN)
        .map(|_| random.word())
        .collect();
    let lent = MARGIN..MARGIN + count;
    let mut expected = old.clone();
    let number = match slot_count(count) {
        None => 1,
        Some(_) if !(1..=LARGEST_BLOCK).contains(&size) => 13,
        Some(slots) => {
            expected[lent.clone()].copy_from_slice(&fresh(size, slots));
            0
        }
    };
    let mut words = old;
    let answer = ffi::block_new(&mut words[lent], size);
    assert_eq!(answer, number, "{count} words, size {size}");
    assert!(words == expected, "{count} words, size {size}: {words:?}");
}

#[test]
fn every_word_count() {
    let mut random = Random::seeded(13);
    for count in 0..=word_count(MOST_SLOTS + 3) {
        for size in sizes(&mut random) {
            compare(count, size, &mut random);
        }
    }
}

#[test]
fn far_too_many_words() {
    let mut random = Random::seeded(14);
    // from 2^9 slots on, counts whose low bits are those of a table
    for count in [9, 10, 16].map(|bits| (7 << bits) + word_count(1)) {
        for size in [0, 1, LARGEST_BLOCK] {
            compare(count, size, &mut random);
        }
    }
}

#[test]
fn every_number_of_slots_is_sound_and_empty() {
    let mut random = Random::seeded(15);
    for slots in 1..=MOST_SLOTS {
        for size in [1, 1 + random.up_to_bits(40), LARGEST_BLOCK] {
            let mut words = vec![random.word(); Block::words(slots)];
            let block = Block::new(&mut words, size).expect("1 to 512 slots, 1 to 2^40 bytes");
            assert_eq!(block.allocated(), Ok(0));
            assert_eq!(block.is_empty(), Ok(true));
            let table = Tracked::new(size, slots).table();
            assert_eq!(read(block.as_words()), Reading::Sound(table));
        }
    }
}
