//! Byte text: the bytes, the length, the kept rest of the buffer and the refusals.

use std::array;
use std::iter;
use std::ops::RangeInclusive;

use lunkaseyo::{byte_text, ffi};
use lunkaseyo_compare::boundary;
use lunkaseyo_compare::random::Random;
use lunkaseyo_compare::rust;

/// From no room at all to more than the longest text needs.
const BUFFERS: RangeInclusive<usize> = 0..=12;

/// A lent buffer and some bytes behind it, which are to be left alone.
type Room = [u8; 16];

/// The number, the length and the room after a call.
type Answer = (u64, u64, Room);

/// Bytes that no text has, different at each place.
fn untouched() -> Room {
    array::from_fn(|place| 0x80 + place as u8)
}

fn answered(amount: u64, buffer: usize) -> Answer {
    let mut room = untouched();
    let mut length = u64::MAX;
    let number = ffi::fmt_bytes(amount, &mut room[..buffer], &mut length);
    (number, length, room)
}

fn refused(number: u64) -> Answer {
    (number, 0, untouched())
}

fn written(text: &str) -> Answer {
    let mut room = untouched();
    room[..text.len()].copy_from_slice(text.as_bytes());
    (0, text.len() as u64, room)
}

fn compare(amount: u64, buffers: RangeInclusive<usize>) {
    let text = rust::fmt_bytes(amount);
    for buffer in buffers {
        let expected = if text.len() <= buffer {
            written(&text)
        } else {
            refused(16)
        };
        let answer = answered(amount, buffer);
        assert_eq!(answer, expected, "{amount} in a buffer of {buffer}");
    }
    let safe = byte_text(amount).expect("below 2^50");
    assert_eq!(safe.as_str(), text, "{amount}");
}

#[test]
fn every_amount_below_2_20() {
    for amount in 0..1 << 20 {
        compare(amount, 12..=12);
    }
}

#[test]
fn small_amounts_in_every_buffer() {
    for amount in 0..1 << 12 {
        compare(amount, BUFFERS);
    }
}

#[test]
fn edges_and_ties_in_every_buffer() {
    for amount in boundary::text_amounts() {
        compare(amount, BUFFERS);
    }
}

#[test]
fn random_amounts_in_every_buffer() {
    let mut random = Random::seeded(50);
    for _ in 0..100_000 {
        compare(random.below(1 << 50), BUFFERS);
        compare(random.up_to_bits(50), BUFFERS);
    }
}

#[test]
fn amounts_from_2_50_on_are_refused_in_every_buffer() {
    let mut random = Random::seeded(15);
    let large = iter::repeat_with(|| random.word() | 1 << 50).take(1_000);
    for amount in [1 << 50, (1 << 50) + 1, 1 << 63, u64::MAX]
        .into_iter()
        .chain(large)
    {
        for buffer in BUFFERS {
            let answer = answered(amount, buffer);
            assert_eq!(answer, refused(15), "{amount} in a buffer of {buffer}");
        }
    }
}
