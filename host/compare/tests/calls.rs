//! Calls on blocks, against the Rust: the answer, the total, every chunk and every word after each
//! call. What was run is counted; `--nocapture` shows the counts.

use std::collections::HashSet;

use lunkaseyo_compare::both::Both;
use lunkaseyo_compare::call_tally::CallTally;
use lunkaseyo_compare::caller::Caller;
use lunkaseyo_compare::calls::{Answer, Call, NO_ID};
use lunkaseyo_compare::generator::{any_size, any_slots};
use lunkaseyo_compare::parts::in_parts;
use lunkaseyo_compare::random::Random;
use lunkaseyo_compare::rust::Request;
use lunkaseyo_compare::sorts::Sort;
use lunkaseyo_compare::table::MOST_SLOTS;

/// Each part has a series of its own, so that the calls are the same on any number of threads.
const PARTS: u64 = 64;
const CALLS_OF_A_PART: u64 = 20_000;

/// A block before the first call.
fn any_start(slots: usize, random: &mut Random) -> Both {
    let sizes = [(); 4].map(|()| any_size(random));
    // most often one with several bytes for each slot
    let large = sizes.into_iter().find(|&size| size >= 16 * slots as u64);
    let size = random.pick(&[sizes[0], large.unwrap_or(sizes[0])]);
    let mut both = Both::new(size, slots, random);
    // the last id may be handed out before the last slot, with it, or after it
    let left = random.below(2 * slots as u64);
    let last_ids = NO_ID - random.pick(&[slots as u64 - 1, left]);
    let any_id = 2 + random.up_to_bits(63);
    both.set_next_id(random.pick(&[2, 2, 2, any_id, last_ids]));
    both
}

/// Some calls on a new block, few or many for its slots.
fn compare_run(slots: usize, tally: &mut CallTally, random: &mut Random) {
    let mut both = any_start(slots, random);
    let mut caller = Caller::new(both.table().size, slots, random);
    let longest = random.pick(&[8, 2 * slots as u64, 12 * slots as u64]);
    for _ in 0..1 + random.below(longest) {
        let call = caller.call(both.table(), random);
        tally.count(&both.call(call));
    }
}

/// One part of the calls.
fn compare_part(part: u64) -> CallTally {
    let mut tally = CallTally::default();
    let mut random = Random::seeded(part);
    // each number of slots has a part that begins with it
    for slots in (1..=MOST_SLOTS).filter(|&slots| slots as u64 % PARTS == part) {
        compare_run(slots, &mut tally, &mut random);
    }
    while tally.calls < CALLS_OF_A_PART {
        compare_run(any_slots(&mut random), &mut tally, &mut random);
    }
    tally
}

#[test]
fn a_million_calls() {
    let tally = in_parts(PARTS, compare_part, CallTally::add);
    println!("{tally}");
    assert!(tally.calls >= 1_300_000);
    let sorts = Sort::all().map(|sort| sort.name);
    tally.sorts.assert_each(sorts, 300);
    tally.alignments.assert_each(0..64, 500);
    tally.granularities.assert_each(0..64, 500);
    tally.sizes.assert_each(0..=40, 5_000);
    tally.slots.assert_each(1..=MOST_SLOTS, 1);
    let slots = [1, 2, 20, 64, MOST_SLOTS];
    tally.slots.assert_each(slots, 3_000);
}

#[test]
fn sorts_have_names_of_their_own() {
    let names: HashSet<&str> = Sort::all().map(|sort| sort.name).collect();
    assert_eq!(names.len(), Sort::all().count());
}

fn request(kind: u64, size: u64, alignment: u64, granularity: u64) -> Call {
    Call::Allocate(Request {
        size,
        alignment,
        kind,
        granularity,
        label: 0,
    })
}

/// Makes calls that are to answer this, and to leave this much allocated.
fn compare_all<const COUNT: usize>(both: &mut Both, calls: [(Call, Answer, u64); COUNT]) {
    for (call, answer, allocated) in calls {
        let step = both.call(call);
        assert_eq!(step.answer, answer, "{call:?}");
        assert_eq!(step.after.allocated, allocated, "{call:?}");
    }
}

fn at(offset: u64, id: u64) -> Answer {
    Answer {
        number: 0,
        offset,
        id,
    }
}

#[test]
fn the_checked_steps() {
    let linear = |size, alignment| request(1, size, alignment, 1024);
    let non_linear = |size, alignment| request(2, size, alignment, 1024);
    let plain = Answer::plain;
    let mut both = Both::new(4096, 8, &mut Random::seeded(10));
    compare_all(
        &mut both,
        [
            (linear(100, 1), at(0, 2), 100),
            (non_linear(256, 64), at(1024, 3), 1280),
            (linear(16, 16), at(2048, 4), 2064),
            (Call::Free(2), plain(0), 1964),
            (linear(16, 1), at(2064, 5), 1980),
            (non_linear(100, 1), at(0, 2), 2080),
            (Call::Free(3), plain(0), 900),
            (Call::Free(2), plain(0), 800),
            (Call::Free(2), plain(10), 800),
            (linear(0, 1), plain(3), 800),
            (linear(16, 0), plain(4), 800),
            (linear(16, 3), plain(4), 800),
        ],
    );
    let merged = &both.table().chunks[0];
    assert_eq!((merged.id, merged.first, merged.size), (2, 0, 1280));
}

#[test]
fn blocks_that_are_filled_and_slots_and_ids_that_are_used_up() {
    let mut random = Random::seeded(11);
    let bytes = |size| request(1, size, 1, 1);
    let (filled, refused) = ((bytes(4096), at(0, 1), 4096), Answer::plain);

    let mut fresh = Both::new(4096, 8, &mut random);
    compare_all(&mut fresh, [(bytes(4097), refused(7), 0), filled]);

    let mut one_slot = Both::new(4096, 1, &mut random);
    compare_all(&mut one_slot, [(bytes(1), refused(9), 0), filled]);

    for slots in [1, 8] {
        let mut no_id = Both::new(4096, slots, &mut random);
        no_id.set_next_id(NO_ID);
        compare_all(&mut no_id, [(bytes(1), refused(8), 0), filled]);
    }

    let mut one_id = Both::new(4096, 8, &mut random);
    one_id.set_next_id(NO_ID - 1);
    compare_all(
        &mut one_id,
        [
            (bytes(1), at(0, NO_ID - 1), 1),
            (bytes(1), refused(8), 1),
            (bytes(4095), at(1, 1), 4096),
        ],
    );
}

/// Every order of the numbers below `count`.
fn orders(count: u64) -> Vec<Vec<u64>> {
    let Some(last) = count.checked_sub(1) else {
        return vec![Vec::new()];
    };
    let with_last = |order: Vec<u64>| {
        (0..=order.len()).map(move |place| {
            let mut order = order.clone();
            order.insert(place, last);
            order
        })
    };
    orders(last).into_iter().flat_map(with_last).collect()
}

#[test]
fn chunks_given_back_in_every_order() {
    const CHUNKS: u64 = 6;
    let mut random = Random::seeded(12);
    for order in orders(CHUNKS) {
        // with free bytes behind the last chunk, and with none
        for size in [8 * CHUNKS + 5, 8 * CHUNKS] {
            let mut both = Both::new(size, CHUNKS as usize + 1, &mut random);
            let ids: Vec<u64> = (0..CHUNKS)
                .map(|place| both.call(request(1 + place % 2, 8, 1, 4)).answer.id)
                .collect();
            for id in order.iter().map(|&place| ids[place as usize]) {
                for call in [Call::Rename(id, 7), Call::Free(id)] {
                    assert_eq!(both.call(call).answer.number, 0);
                }
                for call in [Call::Rename(id, 8), Call::Free(id)] {
                    assert_eq!(both.call(call).answer.number, 10);
                }
            }
            assert_eq!((both.table().allocated, both.table().chunks.len()), (0, 1));
        }
    }
}
