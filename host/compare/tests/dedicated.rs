//! Calls on dedicated blocks, against the Rust: the answer, the total, the report and every word after
//! each call. What was run is counted; `--nocapture` shows the counts.

use std::collections::HashSet;

use lunkaseyo::ffi::Record;
use lunkaseyo_compare::dedicated::both::Both;
use lunkaseyo_compare::dedicated::caller::{any_call, any_size, any_unsound};
use lunkaseyo_compare::dedicated::calls::{asked, expected, is_sound, Call, Step};
use lunkaseyo_compare::dedicated::sorts::Sort;
use lunkaseyo_compare::dedicated::tally::Tally;
use lunkaseyo_compare::parts::in_parts;
use lunkaseyo_compare::random::Random;
use lunkaseyo_compare::rust::Request;

/// Each part has a series of its own, so that the calls are the same on any number of threads.
const PARTS: u64 = 64;
const RUNS_OF_A_PART: u64 = 400;

/// Small numbers and the largest one.
const FEW: [u64; 5] = [0, 1, 2, 3, u64::MAX];

/// Makes a call on any record.
fn compare(record: Record, call: Call) -> Step {
    let (answer, after) = expected(record, call);
    let mut words = record;
    assert_eq!(asked(&mut words, call), answer, "{call:?} on {record:?}");
    assert_eq!(words, after, "{call:?} on {record:?}");
    Step {
        before: record,
        call,
        answer,
        after,
    }
}

/// One part of the calls: runs on new blocks, and calls on records that are not sound.
fn compare_part(part: u64) -> Tally {
    let mut tally = Tally::default();
    let mut random = Random::seeded(part);
    for _ in 0..RUNS_OF_A_PART {
        let mut both = Both::new(any_size(&mut random), &mut random);
        for _ in 0..1 + random.below(30) {
            let call = any_call(both.record(), &mut random);
            for step in both.call(call) {
                tally.count(&step);
            }
            let unsound = any_unsound(&mut random);
            assert!(!is_sound(unsound));
            let call = any_call(unsound, &mut random);
            for call in Call::QUESTIONS.into_iter().chain([call]) {
                tally.count(&compare(unsound, call));
            }
        }
    }
    tally
}

#[test]
fn three_million_calls() {
    let tally = in_parts(PARTS, compare_part, Tally::add);
    println!("{tally}");
    assert!(tally.calls >= 3_180_000);
    tally
        .sorts
        .assert_each(Sort::all().map(|sort| sort.name), 300);
    tally.alignments.assert_each(0..64, 500);
    tally.granularities.assert_each(0..64, 500);
    tally.sizes.assert_each(0..=64, 5_000);
    assert_numbers(&tally);
    assert_pairs(&tally);
}

/// Each number of each call came up.
fn assert_numbers(tally: &Tally) {
    let numbers: [(&str, &[u64]); 7] = [
        ("new", &[0, 13]),
        ("allocate", &[0, 2, 3, 4, 5, 6, 11, 12]),
        ("free", &[0, 2, 18]),
        ("rename", &[0, 2, 18]),
        ("allocated", &[0, 2]),
        ("is_empty", &[0, 2]),
        ("report", &[0, 2]),
    ];
    for (call, numbers) in numbers {
        let keys = numbers.iter().map(|&number| (call, number));
        tally.numbers.assert_each(keys, 2_000);
    }
}

/// Any two faults that a call can have came up together, with none before them.
fn assert_pairs(tally: &Tally) {
    let order = [2, 3, 4, 5, 6, 11, 12];
    for (place, first) in order.into_iter().enumerate() {
        let later = order[place + 1..].iter();
        tally
            .pairs
            .assert_each(later.map(|&other| (first, other)), 500);
    }
    tally.pairs.assert_each([(2, 18)], 500);
}

#[test]
fn sorts_have_names_of_their_own() {
    let names: HashSet<&str> = Sort::all().map(|sort| sort.name).collect();
    assert_eq!(names.len(), Sort::all().count());
}

/// Every list of so many of these numbers.
fn lists<const LENGTH: usize>() -> impl Iterator<Item = [u64; LENGTH]> {
    let count = FEW.len().pow(LENGTH as u32);
    (0..count).map(|number| {
        let mut rest = number;
        [(); LENGTH].map(|()| {
            let word = FEW[rest % FEW.len()];
            rest /= FEW.len();
            word
        })
    })
}

/// Every call with small numbers and the largest one.
fn small_calls() -> Vec<Call> {
    let mut calls = Call::QUESTIONS.to_vec();
    calls.extend(FEW.map(Call::New));
    calls.extend(FEW.map(Call::Free));
    calls.extend(lists().map(|[id, label]| Call::Rename(id, label)));
    calls.extend(lists().map(|[size, alignment, kind, granularity, label]| {
        Call::Allocate(Request {
            size,
            alignment,
            kind,
            granularity,
            label,
        })
    }));
    calls
}

#[test]
fn every_small_call_on_every_small_record() {
    let mut sound = 0;
    let calls = small_calls();
    for record in lists() {
        sound += u64::from(is_sound(record));
        for &call in &calls {
            compare(record, call);
        }
    }
    let records = lists::<3>().count();
    println!("{} calls on {records} records", calls.len());
    assert_eq!(records, 125);
    // of 4 sizes, empty or occupied, under 5 labels
    assert_eq!(sound, 4 * 2 * 5);
}

#[test]
fn a_block_of_any_size_is_taken_once() {
    let sizes = (0..64).flat_map(|bit| [1 << bit, u64::MAX >> bit, (1 << bit) + 1]);
    for size in sizes {
        let all = Call::Allocate(Request {
            size,
            alignment: 1,
            kind: 1,
            granularity: 1,
            label: 7,
        });
        let mut both = Both::new(size, &mut Random::seeded(size));
        for (call, number, record) in [
            (all, 0, [size, size, 7]),
            (all, 11, [size, size, 7]),
            (Call::Free(2), 18, [size, size, 7]),
            (Call::Rename(1, 8), 0, [size, size, 8]),
            (Call::Free(1), 0, [size, 0, 8]),
            (Call::Free(1), 0, [size, 0, 8]),
            (Call::Rename(1, 9), 0, [size, 0, 9]),
            (all, 0, [size, size, 7]),
            (Call::New(size), 0, [size, 0, 0]),
        ] {
            let [step, ..] = both.call(call);
            assert_eq!((step.answer.number, step.after), (number, record));
        }
    }
}
