//! Blocks of a few bytes: every well-formed request, every free and every rename, on every table that
//! they lead to.

use std::collections::HashSet;

use lunkaseyo_compare::calls::{asked, expected, Call};
use lunkaseyo_compare::parts::in_parts;
use lunkaseyo_compare::rust::Request;
use lunkaseyo_compare::table::head;
use lunkaseyo_compare::tracked::Tracked;

const LARGEST: u64 = 5;
const MOST_SLOTS: u64 = 4;

/// Alignments and granularities.
const POWERS: [u64; 3] = [1, 2, 4];

/// Tables with a later next id are not looked at: there is no end of them.
const LAST_NEXT_ID: u64 = 5;

/// The calls on a block of this size.
fn calls(size: u64) -> Vec<Call> {
    let ids = 0..=LAST_NEXT_ID;
    let mut calls: Vec<Call> = ids
        .flat_map(|id| [Call::Free(id), Call::Rename(id, 7)])
        .collect();
    for size in 1..=size + 1 {
        for kind in [1, 2] {
            for alignment in POWERS {
                calls.extend(POWERS.map(|granularity| {
                    Call::Allocate(Request {
                        size,
                        alignment,
                        kind,
                        granularity,
                        label: 0,
                    })
                }));
            }
        }
    }
    calls
}

/// Makes every call on every table that calls lead to, and gives the number of tables.
fn compare(size: u64, slots: usize) -> usize {
    let fresh = Tracked::new(size, slots).table().words();
    let mut seen = HashSet::from([fresh.clone()]);
    let mut unseen = vec![fresh];
    while let Some(before) = unseen.pop() {
        for call in calls(size) {
            let (answer, after) = expected(&before, call);
            let mut words = before.clone();
            assert_eq!(asked(&mut words, call), answer, "{call:?} on {before:?}");
            assert_eq!(words, after, "{call:?} on {before:?}");
            // labels decide nothing, so renames lead to nothing new
            let is_rename = matches!(call, Call::Rename(..));
            if !is_rename && after[head::NEXT_ID] <= LAST_NEXT_ID && seen.insert(after.clone()) {
                unseen.push(after);
            }
        }
    }
    seen.len()
}

#[test]
fn every_call_on_small_blocks() {
    let compare_part = |part| {
        // the largest first, because they take longest
        let (size, slots) = (LARGEST - part % LARGEST, MOST_SLOTS - part / LARGEST);
        compare(size, slots as usize)
    };
    let tables = in_parts(LARGEST * MOST_SLOTS, compare_part, |sum, tables| {
        *sum += tables
    });
    println!("{tables} tables");
    assert_eq!(tables, 10_680);
}
