//! The leak walk on blocks after random calls, against the Rust's reports and its chunks: what each step
//! hands out, and the place after it. What was run is counted; `--nocapture` shows the counts.

use std::collections::{HashMap, HashSet};

use lunkaseyo::ffi::Leak;
use lunkaseyo::Block;
use lunkaseyo_compare::both::Both;
use lunkaseyo_compare::caller::Caller;
use lunkaseyo_compare::calls::{Call, NO_ID};
use lunkaseyo_compare::damage::{Damage, Turns};
use lunkaseyo_compare::generator::{any_size, any_slots, any_table, rearranged};
use lunkaseyo_compare::leaks::sorts::{Sort, Step};
use lunkaseyo_compare::leaks::tally::Tally;
use lunkaseyo_compare::leaks::{
    asked, expected, leak, live, places, start_expected, started, step, Stepped,
};
use lunkaseyo_compare::parts::in_parts;
use lunkaseyo_compare::random::Random;
use lunkaseyo_compare::reading::read;
use lunkaseyo_compare::rust::Request;
use lunkaseyo_compare::table::{Table, MOST_SLOTS};
use lunkaseyo_compare::tracked::Tracked;

/// Each part has a series of its own, so that the walks are the same on any number of threads.
const PARTS: u64 = 64;
const WALKS_OF_A_PART: u64 = 500;

/// What the Rust reports of each live chunk: name, first byte, size.
type Reported = Vec<(String, u64, u64)>;

/// A step from a place on a sound table.
fn compare_step(words: &[u64], table: &Table, place: u64, tally: &mut Tally) -> Stepped {
    let stepped = asked(words, place);
    assert_eq!(stepped, step(table, place), "from {place} on {table:?}");
    tally.count(&Step {
        table,
        place,
        stepped,
    });
    stepped
}

/// The chunks that a whole walk hands out. Its end comes again.
fn walked(words: &[u64], table: &Table, tally: &mut Tally) -> Vec<Leak> {
    let (number, mut place) = started(words);
    assert_eq!((number, place), (0, 0), "{table:?}");
    let mut leaks = Vec::new();
    loop {
        let stepped = compare_step(words, table, place, tally);
        place = stepped.place;
        if stepped.is_end() {
            break;
        }
        leaks.push(stepped.leak);
        assert!(leaks.len() <= table.slots, "no end comes: {table:?}");
    }
    assert!(compare_step(words, table, place, tally).is_end());
    tally.count_walk(leaks.len());
    leaks
}

/// A whole walk, and steps from any places, on the words of a block that the Rust reports this of.
fn compare(words: &[u64], table: &Table, mut reported: Reported, random: &mut Random) -> Tally {
    let mut tally = Tally::default();
    let leaks = walked(words, table, &mut tally);
    // by rising address they are the live chunks; in any order, the report
    assert_eq!(leaks, live(table).map(leak).collect::<Vec<_>>());
    let named = |leak: &Leak| (leak[4].to_string(), leak[1], leak[2]);
    let mut names: Reported = leaks.iter().map(named).collect();
    names.sort_unstable();
    reported.sort_unstable();
    assert_eq!(names, reported, "{table:?}");
    assert_eq!(leaks, by_wrapper(words), "{table:?}");
    for place in places(table, random) {
        compare_step(words, table, place, &mut tally);
    }
    tally
}

/// The same walk by the safe wrapper.
fn by_wrapper(words: &[u64]) -> Vec<Leak> {
    let mut words = words.to_vec();
    let block = Block::over(&mut words);
    let mut leaks = block.leaks().expect("the table is sound");
    let walked: Vec<Leak> = leaks
        .by_ref()
        .map(|leak| {
            let kind = leak.kind as u64;
            [leak.id, leak.first_byte, leak.size, kind, leak.label]
        })
        .collect();
    assert_eq!(leaks.next(), None);
    walked
}

/// Walks along one block between calls on it.
fn compare_run(slots: usize, random: &mut Random) -> Tally {
    let mut tally = Tally::default();
    let mut both = Both::new(any_size(random), slots, random);
    let mut caller = Caller::new(both.table().size, slots, random);
    let mut offsets = HashMap::new();
    let any_id = 2 + random.up_to_bits(63);
    both.set_next_id(random.pick(&[2, any_id, NO_ID - slots as u64]));
    for _ in 0..random.below(4 * slots as u64) {
        let call = caller.call(both.table(), random);
        let answer = both.call(call).answer;
        if let (Call::Allocate(_), 0) = (call, answer.number) {
            offsets.insert(answer.id, answer.offset);
        }
        if random.once_in(2 + slots as u64 / 8) {
            tally.add(compare(both.words(), both.table(), both.reported(), random));
            let is_padded = |[id, first, ..]: &Leak| offsets[id] > *first;
            let leaks = live(both.table()).map(leak);
            tally.padded += leaks.filter(is_padded).count() as u64;
        }
    }
    tally.add(compare(both.words(), both.table(), both.reported(), random));
    tally
}

/// One part of the walks: along blocks, and along tables that no calls need have led to.
fn compare_part(part: u64) -> Tally {
    let mut tally = Tally::default();
    let mut random = Random::seeded(part);
    if part % 8 == 0 {
        tally.add(compare_run(MOST_SLOTS, &mut random));
    }
    while tally.walks < WALKS_OF_A_PART {
        tally.add(compare_run(any_slots(&mut random), &mut random));
        for _ in 0..4 {
            let table = any_table(&mut random);
            for table in [rearranged(table.clone(), &mut random), table] {
                let reported = Tracked::of(&table).reported();
                tally.add(compare(&table.words(), &table, reported, &mut random));
            }
        }
    }
    tally
}

#[test]
fn walks_and_steps_from_any_place() {
    let tally = in_parts(PARTS, compare_part, Tally::add);
    println!("{tally}");
    assert!(tally.steps >= 1_000_000 && tally.walks >= 30_000);
    let sorts = Sort::all().map(|sort| sort.name);
    tally.sorts.assert_each(sorts, 1_000);
    tally.sizes.assert_each(0..=40, 1_000);
    tally.lengths.assert_each(0..=20, 20);
    assert!(tally.padded >= 1_000);
}

#[test]
fn sorts_have_names_of_their_own() {
    let names: HashSet<&str> = Sort::all().map(|sort| sort.name).collect();
    assert_eq!(names.len(), Sort::all().count());
}

#[test]
fn the_longest_walk() {
    let mut random = Random::seeded(512);
    let mut both = Both::new(MOST_SLOTS as u64, MOST_SLOTS, &mut random);
    for place in 0..MOST_SLOTS as u64 {
        let step = both.call(Call::Allocate(Request {
            size: 1,
            alignment: 1,
            kind: 1 + place % 2,
            granularity: 1,
            label: place,
        }));
        assert_eq!((step.answer.number, step.answer.offset), (0, place));
    }
    let mut compare_length = |both: &Both, length| {
        let tally = compare(both.words(), both.table(), both.reported(), &mut random);
        assert_eq!(tally.lengths.of(&length), 1);
    };
    compare_length(&both, MOST_SLOTS);
    let ids: Vec<u64> = both.table().chunks.iter().map(|chunk| chunk.id).collect();
    for &id in ids.iter().step_by(2) {
        both.call(Call::Free(id));
    }
    compare_length(&both, MOST_SLOTS / 2);
}

/// A walk along a block that changes between its steps: by calls, which leave it sound, and by damages,
/// which are undone.
fn compare_changing(damages: &mut Turns, random: &mut Random) -> [u64; 3] {
    let mut numbers = [0; 3];
    let table = any_table(random);
    let mut caller = Caller::new(table.size, table.slots, random);
    let mut both = Both::of(table);
    let (_, mut place) = started(both.words());
    for _ in 0..2 * both.table().slots.min(20) {
        let (_, spoilt) = damages.spoil(both.table(), random);
        let reading = read(&spoilt);
        let stepped = asked(&spoilt, place);
        assert_eq!(
            stepped,
            expected(&reading, place),
            "from {place}: {reading:?}"
        );
        assert_eq!(started(&spoilt), (start_expected(&reading), 0));
        numbers[stepped.number as usize] += 1;

        let stepped = asked(both.words(), place);
        assert_eq!(stepped, step(both.table(), place), "from {place}");
        place = stepped.place;
        let call = caller.call(both.table(), random);
        both.call(call);
    }
    numbers
}

#[test]
fn walks_along_a_table_that_changes() {
    let compare_part = |part| {
        let mut random = Random::seeded(part);
        let lists = [Damage::ONE_WORD, Damage::SEVERAL_WORDS, Damage::WORD_COUNT];
        let mut damages = lists.map(Turns::of);
        let mut numbers = [0; 3];
        for round in 0..60 {
            let walk = compare_changing(&mut damages[round % 3], &mut random);
            add(&mut numbers, walk);
        }
        numbers
    };
    let numbers = in_parts(PARTS, compare_part, add);
    println!("accepted, 1 and 2 between two steps: {numbers:?}");
    assert!(numbers.iter().all(|&count| count >= 5_000));
}

fn add(sum: &mut [u64; 3], other: [u64; 3]) {
    for (count, other) in sum.iter_mut().zip(other) {
        *count += other;
    }
}
