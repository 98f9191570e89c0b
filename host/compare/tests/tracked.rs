//! The writer of tables against tables written by hand, and the Rust's blocks taken from tables.

use lunkaseyo_compare::generator::{rearranged, Run};
use lunkaseyo_compare::random::Random;
use lunkaseyo_compare::rust::Request;
use lunkaseyo_compare::tracked::{Placed, Tracked};

/// The words of a table of 8 slots, of which these are the first.
fn table(words: &[u64]) -> Vec<u64> {
    let mut table = vec![0; 4 + 7 * 8];
    table[..words.len()].copy_from_slice(words);
    table
}

fn request(kind: u64, size: u64, alignment: u64, label: u64) -> Request {
    Request {
        size,
        alignment,
        kind,
        granularity: 1024,
        label,
    }
}

fn place(block: &mut Tracked, request: Request) -> (u64, u64) {
    match block.allocate(request) {
        Placed::At { offset, id } => (offset, id),
        other => panic!("{request:?}: {other:?}"),
    }
}

/// A block after the checked steps to the freeing of id 3, and a rename of id 4.
fn stepped() -> Tracked {
    let mut block = Tracked::new(4096, 8);
    assert_eq!(place(&mut block, request(1, 100, 1, 11)), (0, 2));
    assert_eq!(place(&mut block, request(2, 256, 64, 12)), (1024, 3));
    assert_eq!(place(&mut block, request(1, 16, 16, 13)), (2048, 4));
    block.free(2);
    assert_eq!(place(&mut block, request(1, 16, 1, 14)), (2064, 5));
    assert_eq!(place(&mut block, request(2, 100, 1, 15)), (0, 2));
    block.free(3);
    block.rename(4, 16);
    block
}

#[test]
#[rustfmt::skip]
fn new_chunks_take_slots_in_turn() {
    let mut block = Tracked::new(4096, 8);
    assert_eq!(block.table().words(), table(&[
        4096, 0, 2, 1,
        1, 4096, 0, 0, 0, 0, 0,
    ]));
    assert_eq!(place(&mut block, request(1, 100, 1, 11)), (0, 2));
    assert_eq!(place(&mut block, request(2, 256, 64, 12)), (1024, 3));
    assert_eq!(place(&mut block, request(1, 16, 16, 13)), (2048, 4));
    assert_eq!(block.table().words(), table(&[
        4096, 2064, 5, 2,
        1, 2032, 2064, 0, 0, 0, 4,
        2, 100, 0, 1, 11, 3, 0,
        3, 1180, 100, 2, 12, 4, 2,
        4, 784, 1280, 1, 13, 1, 3,
    ]));
}

#[test]
#[rustfmt::skip]
fn merged_chunks_leave_their_slots() {
    let mut block = stepped();
    assert_eq!(block.table().words(), table(&[
        4096, 900, 6, 2,
        1, 2016, 2080, 0, 0, 0, 5,
        2, 100, 0, 2, 15, 3, 0,
        3, 1180, 100, 0, 0, 4, 2,
        4, 784, 1280, 1, 16, 5, 3,
        5, 16, 2064, 1, 14, 1, 4,
    ]));
    // the left id and slot survive, and the slot that is empty then is the next to be taken
    block.free(2);
    assert_eq!(place(&mut block, request(1, 20, 1, 17)), (0, 6));
    assert_eq!(block.table().words(), table(&[
        4096, 820, 7, 3,
        1, 2016, 2080, 0, 0, 0, 5,
        2, 1260, 20, 0, 0, 4, 3,
        6, 20, 0, 1, 17, 2, 0,
        4, 784, 1280, 1, 16, 5, 2,
        5, 16, 2064, 1, 14, 1, 4,
    ]));
}

#[test]
fn a_full_table_takes_exact_fits_only() {
    let mut block = Tracked::new(4096, 1);
    let before = block.table();
    assert_eq!(block.allocate(request(1, 1, 1, 0)), Placed::NoEmptySlot);
    assert_eq!(block.table(), before);
    assert_eq!(block.allocate(request(1, 4097, 1, 0)), Placed::OutOfMemory);
    assert_eq!(place(&mut block, request(1, 4096, 1, 0)), (0, 1));
}

#[test]
fn the_last_id_is_2_64_minus_2() {
    let mut block = Tracked::new(4096, 8);
    block.skip_ids(u64::MAX - 3);
    assert_eq!(place(&mut block, request(1, 1, 1, 0)), (0, u64::MAX - 1));
    assert_eq!(block.allocate(request(1, 1, 1, 0)), Placed::OutOfMemory);
    assert_eq!(place(&mut block, request(1, 4095, 1, 0)), (1, 1));
}

#[test]
fn a_block_can_be_taken_from_any_sound_table() {
    let mut random = Random::seeded(8);
    for _ in 0..1_000 {
        let called = Run::start(&mut random).next_table(&mut random);
        let other = rearranged(called.clone(), &mut random);
        for table in [called, other] {
            let mut block = Tracked::of(&table);
            assert_eq!(block.table(), table);
            // all that is given back is one free chunk again
            for chunk in table.chunks.iter().filter(|chunk| !chunk.is_free()) {
                block.free(chunk.id);
            }
            let empty = block.table();
            let left = &table.chunks[0];
            assert_eq!((empty.allocated, empty.chunks.len()), (0, 1));
            assert_eq!(
                (empty.chunks[0].id, empty.chunks[0].slot),
                (left.id, left.slot)
            );
            assert_eq!(empty.chunks[0].size, table.size);
        }
    }
}
