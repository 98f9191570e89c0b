//! Block sizes as any four words, on the boundary itself: where the rules can produce them the
//! answers are the Rust's, and all others are refused with 14 and zeros.

use std::collections::HashSet;

use lunkaseyo::ffi::{self, Words};
use lunkaseyo_compare::boundary::{self, MB};
use lunkaseyo_compare::random::Random;
use lunkaseyo_compare::rust::{self, AllocationSizes};

type Setter = fn(Words, u64, &mut Words) -> u64;
type RustSetter = fn(AllocationSizes, u64) -> AllocationSizes;

/// Each setter and the Rust's.
const SETTERS: [(Setter, RustSetter); 2] = [
    (
        ffi::sizes_with_max_device_memblock_size,
        AllocationSizes::with_max_device_memblock_size,
    ),
    (
        ffi::sizes_with_max_host_memblock_size,
        AllocationSizes::with_max_host_memblock_size,
    ),
];

/// 0 is the device; any other number is the host, whichever bit it has set.
const HOST_FLAGS: [u64; 5] = [0, 1, 2, 1 << 32, u64::MAX];

/// Sizes that the rules can produce, and whose four words differ.
const GROWN: Words = [8 * MB, 256 * MB, 4 * MB, 64 * MB];

/// What out-values hold before a call.
const SPOILT: u64 = 0xA5A5_A5A5_A5A5_A5A5;

/// The rules as they are worded: multiples of 4 MiB from 4 MiB to 256 MiB, and no maximum below its
/// minimum.
fn producible(words: Words) -> bool {
    let [min_device, max_device, min_host, max_host] = words;
    let in_rules = |size: u64| size % (4 * MB) == 0 && (4 * MB..=256 * MB).contains(&size);
    words.into_iter().all(in_rules) && min_device <= max_device && min_host <= max_host
}

/// Both setters and the question, on the same words.
fn compare(words: Words, size: u64, count: u64) {
    let theirs = producible(words).then(|| rust::sizes(words));
    for (setter, rust_setter) in SETTERS {
        let mut out = [SPOILT; 4];
        let number = setter(words, size, &mut out);
        let expected = match theirs {
            Some(theirs) => (0, rust::words(rust_setter(theirs, size))),
            None => (14, [0; 4]),
        };
        assert_eq!((number, out), expected, "{words:?} with {size}");
    }
    for is_host in HOST_FLAGS {
        let mut out = SPOILT;
        let number = ffi::sizes_get_memblock_size(words, is_host, count, &mut out);
        let expected = match theirs {
            Some(theirs) => (0, theirs.get_memblock_size(is_host != 0, count as usize)),
            None => (14, 0),
        };
        let asked = (words, is_host, count);
        assert_eq!((number, out), expected, "{asked:?}");
    }
}

/// As [`compare`], with a size and a count picked at random.
fn compare_somehow(words: Words, random: &mut Random) {
    let size = random.pick(&[0, 5 * MB, 64 * MB, 255 * MB, u64::MAX]);
    compare(words, size, random.below(9));
}

#[test]
fn the_rules_are_what_the_rust_can_produce() {
    let sizes = || (0..=300).map(|megabytes| megabytes * MB);
    let mut produced: HashSet<Words> = HashSet::new();
    for min in sizes() {
        for max in sizes() {
            let grown = AllocationSizes::new(min, min)
                .with_max_device_memblock_size(max)
                .with_max_host_memblock_size(max);
            produced.insert(rust::words(grown));
        }
    }
    for min in boundary::block_sizes() {
        for max in boundary::block_sizes() {
            let words = [min, max, min, max];
            assert_eq!(producible(words), produced.contains(&words), "{words:?}");
        }
    }
}

#[test]
fn edges_at_every_place() {
    let mut random = Random::seeded(14);
    let edges = boundary::block_sizes();
    for &min_device in &edges {
        for &max_device in &edges {
            for &min_host in &edges {
                for &max_host in &edges {
                    let words = [min_device, max_device, min_host, max_host];
                    compare_somehow(words, &mut random);
                }
            }
        }
    }
}

#[test]
fn any_bit_turned_over_at_any_place() {
    let mut random = Random::seeded(22);
    for sound in [GROWN, [4 * MB; 4], [252 * MB; 4], [256 * MB; 4]] {
        for place in 0..4 {
            for bit in 0..64 {
                let mut words = sound;
                words[place] ^= 1 << bit;
                compare_somehow(words, &mut random);
            }
        }
    }
}

#[test]
fn every_count_and_size_on_grown_sizes() {
    for size in boundary::block_sizes() {
        for count in boundary::BLOCK_COUNTS {
            compare(GROWN, size, count);
        }
    }
}

#[test]
fn multiples_in_any_order() {
    let mut random = Random::seeded(256);
    for _ in 0..100_000 {
        // from 0 to 65 times 4 MiB: each limit and a multiple beyond it
        let words = [(); 4].map(|()| random.below(66) * 4 * MB);
        compare_somehow(words, &mut random);
    }
}

#[test]
fn random_words() {
    let mut random = Random::seeded(64);
    for _ in 0..100_000 {
        let words = [(); 4].map(|()| random.up_to_bits(64));
        compare_somehow(words, &mut random);
        // one word is wrong in some way, or right by chance; the others are right
        let mut words = GROWN;
        words[random.below(4) as usize] = random.up_to_bits(30);
        compare_somehow(words, &mut random);
    }
}
