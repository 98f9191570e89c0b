//! Block sizes as callers make them: `new`, the default, both setters, and the next block's size.

use lunkaseyo::ffi::Words;
use lunkaseyo::AllocationSizes;
use lunkaseyo_compare::boundary::{self, MB};
use lunkaseyo_compare::random::Random;
use lunkaseyo_compare::rust;

/// All four words, and the next block for host and device at every count.
fn compare(ours: AllocationSizes, theirs: rust::AllocationSizes) {
    assert_eq!(Words::from(ours), rust::words(theirs));
    for is_host in [false, true] {
        for count in boundary::BLOCK_COUNTS {
            let next = theirs.get_memblock_size(is_host, count as usize);
            let answer = ours.get_memblock_size(is_host, count);
            assert_eq!(answer, Ok(next), "{ours:?}, host {is_host}, {count} blocks");
        }
    }
}

/// Sizes that are made, then grown in both orders.
fn compare_grown(device: [u64; 2], host: [u64; 2]) {
    let ours = AllocationSizes::new(device[0], host[0]);
    let theirs = rust::AllocationSizes::new(device[0], host[0]);
    compare(ours, theirs);

    let grow_device = |sizes: AllocationSizes| {
        let grown = sizes.with_max_device_memblock_size(device[1]);
        grown.expect("sizes that the calls made are accepted")
    };
    let grow_host = |sizes: AllocationSizes| {
        let grown = sizes.with_max_host_memblock_size(host[1]);
        grown.expect("sizes that the calls made are accepted")
    };
    let with_device = theirs.with_max_device_memblock_size(device[1]);
    let with_host = theirs.with_max_host_memblock_size(host[1]);
    let with_both = with_device.with_max_host_memblock_size(host[1]);
    compare(grow_device(ours), with_device);
    compare(grow_host(ours), with_host);
    compare(grow_host(grow_device(ours)), with_both);
    compare(grow_device(grow_host(ours)), with_both);
}

/// A size near the limits, of any magnitude, or one of the edges.
fn any_size(random: &mut Random, edges: &[u64]) -> u64 {
    let near = random.below(300 * MB);
    let far = random.up_to_bits(64);
    let edge = random.pick(edges);
    random.pick(&[near, near, far, edge])
}

#[test]
fn the_default() {
    compare(AllocationSizes::default(), rust::AllocationSizes::default());
}

#[test]
fn every_pair_of_edges() {
    for first in boundary::block_sizes() {
        for second in boundary::block_sizes() {
            // the host's pair is turned round, so that device and host differ
            compare_grown([first, second], [second, first]);
        }
    }
}

#[test]
fn random_sizes() {
    let mut random = Random::seeded(4);
    let edges = boundary::block_sizes();
    for _ in 0..100_000 {
        let [a, b, c, d] = [(); 4].map(|()| any_size(&mut random, &edges));
        compare_grown([a, b], [c, d]);
    }
}
