//! Every refusal of the paper: its number, the variant that a call gives for it, and its sentence.

use std::collections::HashSet;
use std::fmt::Debug;

use lunkaseyo::{
    byte_text, ffi, fmt_bytes, AllocationSizes, Block, Dedicated, Kind, Refusal, Request,
};

/// All of a block of 64 bytes.
const ALL: Request = Request {
    size: 64,
    alignment: 1,
    kind: Kind::Linear,
    granularity: 1,
    label: 0,
};

/// The numbers that the paper names.
fn numbers() -> impl Iterator<Item = u64> {
    (1..=16).chain([18])
}

fn refused<T: Debug>(answer: Result<T, Refusal>) -> Refusal {
    answer.expect_err("this call is to be refused")
}

#[test]
fn each_number_has_a_variant_and_no_other_number_has() {
    let all: Vec<u64> = Refusal::ALL.map(Refusal::number).to_vec();
    assert_eq!(all, numbers().collect::<Vec<_>>());
    for number in (0..100).chain([257, 1 << 32 | 1, u64::MAX]) {
        let named = numbers().any(|known| known == number);
        let expected = named.then_some(number);
        assert_eq!(Refusal::of(number).map(Refusal::number), expected);
    }
}

#[test]
fn each_has_a_sentence_of_its_own_behind_its_number() {
    let mut sentences = HashSet::new();
    for refusal in Refusal::ALL {
        let text = refusal.to_string();
        let prefix = format!("refusal {}: ", refusal.number());
        let sentence = text.strip_prefix(&prefix).expect("the number comes first");
        assert!(sentence.contains(' '), "{sentence:?} is no sentence");
        assert!(sentences.insert(sentence.to_owned()), "{sentence:?} twice");
    }
}

#[test]
fn it_is_an_error_like_any_other() {
    let ask = || -> Result<(), Box<dyn std::error::Error>> {
        byte_text(1 << 50)?;
        Ok(())
    };
    let fault = ask().expect_err("the amount is too large");
    assert_eq!(fault.downcast_ref(), Some(&Refusal::Amount));
}

/// What a fresh block of 64 bytes with this many slots and this next id answers to a request.
fn of_a_block(slots: usize, next_id: u64, request: Request) -> Refusal {
    let mut words = vec![0; Block::words(slots)];
    Block::new(&mut words, 64).expect("a table");
    words[2] = next_id;
    refused(Block::over(&mut words).allocate(request))
}

#[test]
fn refusals_of_a_block() {
    let part = Request { size: 1, ..ALL };
    for (request, refusal) in [
        (Request { size: 0, ..ALL }, Refusal::ZeroSize),
        (
            Request {
                alignment: 3,
                ..ALL
            },
            Refusal::Alignment,
        ),
        (
            Request {
                granularity: 0,
                ..ALL
            },
            Refusal::Granularity,
        ),
        (Request { size: 65, ..ALL }, Refusal::NoRoom),
    ] {
        assert_eq!(of_a_block(2, 2, request), refusal);
    }
    assert_eq!(of_a_block(2, u64::MAX, part), Refusal::NoId);
    assert_eq!(of_a_block(1, 2, part), Refusal::NoSlot);
    assert_eq!(of_a_block(1, 0, ALL), Refusal::Unsound);

    let mut words = [0; Block::words(1)];
    assert_eq!(refused(Block::new(&mut words, 0)), Refusal::BlockSize);
    assert_eq!(refused(Block::new(&mut [], 1)), Refusal::WordCount);
    let mut block = Block::new(&mut words, 64).expect("a table");
    assert_eq!(refused(block.free(1)), Refusal::UnknownId);
}

#[test]
fn a_kind_is_refused_at_the_boundary_alone() {
    let (mut offset, mut id) = (0, 0);
    let number = ffi::dedicated_allocate(&mut [64, 0, 0], [64, 1, 3, 1, 0], &mut offset, &mut id);
    assert_eq!(Refusal::of(number), Some(Refusal::Kind));
}

#[test]
fn refusals_of_a_dedicated_block() {
    let mut block = Dedicated::new(64).expect("the size is not 0");
    let part = Request { size: 1, ..ALL };
    assert_eq!(refused(block.allocate(part)), Refusal::OtherSize);
    assert_eq!(refused(block.free(2)), Refusal::NotId1);
    block.allocate(ALL).expect("it is all of the block");
    assert_eq!(refused(block.allocate(ALL)), Refusal::Occupied);
    assert_eq!(refused(Dedicated::new(0)), Refusal::BlockSize);
    let unsound = Dedicated::from_words([64, 1, 0]);
    assert_eq!(refused(unsound.allocated()), Refusal::Unsound);
}

#[test]
fn refusals_of_sizes_and_texts() {
    let odd = AllocationSizes::from([0; 4]);
    assert_eq!(refused(odd.get_memblock_size(false, 0)), Refusal::Sizes);
    assert_eq!(refused(fmt_bytes(1 << 50, &mut [])), Refusal::Amount);
    assert_eq!(refused(fmt_bytes(0, &mut [])), Refusal::ShortBuffer);
}
