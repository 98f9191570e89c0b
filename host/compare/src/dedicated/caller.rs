//! Random calls on dedicated blocks, of every sort, and records that are not sound.

use lunkaseyo::ffi::Record;

use super::calls::Call;
use crate::random::Random;
use crate::requests::faulty;
use crate::rust::Request;

/// Any size of a block: 1 byte to 2^64 - 1, most often above 2^40.
pub fn any_size(random: &mut Random) -> u64 {
    let few = random.below(4);
    let (bits, any) = (random.up_to_bits(64), random.word());
    let sizes = [
        1 + few,
        (1 << 40) - 1 + few,
        1 << random.below(64),
        u64::MAX - few,
        bits.max(1),
        any.max(1),
    ];
    random.pick(&sizes)
}

/// The next call on a block with this record.
pub fn any_call(record: Record, random: &mut Random) -> Call {
    match random.below(20) {
        0 => Call::New(match random.below(4) {
            0 => 0,
            _ => any_size(random),
        }),
        1..=9 => Call::Allocate(any_request(record, random)),
        10..=14 => Call::Free(any_id(random)),
        _ => Call::Rename(any_id(random), any_label(random)),
    }
}

/// A request, most often a well-formed one for the block's size.
fn any_request([size, ..]: Record, random: &mut Random) -> Request {
    let usual = Request {
        size,
        alignment: 1 << random.below(64),
        kind: 1 + random.below(2),
        granularity: 1 << random.below(64),
        label: any_label(random),
    };
    let request = Request {
        size: if random.once_in(3) {
            other_size(size, random)
        } else {
            size
        },
        ..usual
    };
    match random.below(5) {
        0 => faulty(request, random),
        1 => one_fault(usual, random),
        _ => request,
    }
}

/// A size that differs from the block's, most often a little.
fn other_size(size: u64, random: &mut Random) -> u64 {
    let (up, down) = (size.wrapping_add(1), size.wrapping_sub(1));
    let bit = size ^ 1 << random.below(64);
    let any = random.up_to_bits(64);
    random.pick(&[up, down, bit, bit, any])
}

/// The request with at most one fault that can be seen without a block.
fn one_fault(usual: Request, random: &mut Random) -> Request {
    let spoilt = faulty(usual, random);
    match random.below(4) {
        0 => Request { size: 0, ..usual },
        1 => Request {
            alignment: spoilt.alignment,
            ..usual
        },
        2 => Request {
            granularity: spoilt.granularity,
            ..usual
        },
        _ => Request {
            kind: spoilt.kind,
            ..usual
        },
    }
}

/// Most often 1, which is the only right one.
fn any_id(random: &mut Random) -> u64 {
    let like_1 = 1 | 1 << (1 + random.below(63));
    let any = random.up_to_bits(64);
    random.pick(&[1, 1, 1, 1, 0, 2, like_1, u64::MAX, any])
}

fn any_label(random: &mut Random) -> u64 {
    let any = random.up_to_bits(64);
    random.pick(&[0, 1, u64::MAX, any, any])
}

/// A record that is not sound: no size, or neither nothing nor all allocated.
pub fn any_unsound(random: &mut Random) -> Record {
    let (size, label) = (any_size(random), any_label(random));
    // one of the last two is a part of the block, or more than it
    let allocated = [other_size(size, random), 1, 2];
    let is_odd = |allocated: &u64| ![0, size].contains(allocated);
    let odd = allocated.into_iter().find(is_odd);
    let odd = odd.expect("a size is not both 1 and 2");
    let of_nothing = random.pick(&[0, 1, odd]);
    let records = [[0, of_nothing, label], [size, odd, label]];
    random.pick(&[records[0], records[1], records[1]])
}
