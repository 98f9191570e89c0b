//! Requests by themselves: their faults, and how one is made that has some, or that just fits.

use crate::random::Random;
use crate::rust::Request;

/// The first fault of a request that can be seen without a block.
pub fn fault(request: Request) -> Option<u64> {
    let faults = [
        (3, request.size == 0),
        (4, !request.alignment.is_power_of_two()),
        (5, !request.granularity.is_power_of_two()),
        (6, request.kind != 1 && request.kind != 2),
    ];
    let mut found = faults.into_iter().filter(|(_, is_found)| *is_found);
    found.next().map(|(number, _)| number)
}

/// The request with any of its four faults, one of them at least.
pub fn faulty(usual: Request, random: &mut Random) -> Request {
    let faults = 1 + random.below(15);
    let has = |fault: u64| faults >> fault & 1 == 1;
    let (alignment, granularity) = (no_power(random), no_power(random));
    let kinds = [0, 3, 257, 258, 1 << 32 | 1, 1 << 63 | 2, u64::MAX];
    let kind = random.pick(&kinds);
    Request {
        size: if has(0) { 0 } else { usual.size },
        alignment: if has(1) { alignment } else { usual.alignment },
        kind: if has(2) { kind } else { usual.kind },
        granularity: if has(3) {
            granularity
        } else {
            usual.granularity
        },
        ..usual
    }
}

/// A number with no bit set, or with two or more.
fn no_power(random: &mut Random) -> u64 {
    let (one, other) = (random.below(64), random.below(63));
    let two = 1 << one | 1 << (other + u64::from(other >= one));
    let many = two | random.word();
    random.pick(&[0, 3, two, two, many, u64::MAX])
}

/// The usual request, or now and then another: one that just fits, a faulty one, or one of any size.
pub fn varied(
    usual: Request,
    fitting: impl FnOnce(&mut Random) -> Request,
    random: &mut Random,
) -> Request {
    match random.below(16) {
        0..=3 => fitting(random),
        4 => faulty(usual, random),
        5 => Request {
            size: random.up_to_bits(64),
            ..usual
        },
        _ => usual,
    }
}

/// A size that a chunk of so many bytes just holds behind this padding, now and then but for one byte.
pub fn fitting_size(bytes: u64, padding: u64, random: &mut Random) -> u64 {
    // where it would not fit, a sum that wraps says that it does
    let size = bytes.wrapping_sub(padding);
    let beside = random.pick(&[size.wrapping_sub(1), size.wrapping_add(1)]);
    random.pick(&[size, size, size, beside])
}
