//! The recorded runs in the repository are what the Rust answers now, and they show each rule.

use lunkaseyo_compare::call_tally::CallTally;
use lunkaseyo_compare::kept::assert_kept;
use lunkaseyo_compare::runs;
use lunkaseyo_compare::sorts::Sort;

#[test]
fn the_runs_are_what_the_rust_answers() {
    assert_kept("crates/model/specs/Recorded.antt", &runs::recorded());
}

/// Sorts that have no place in the runs, or are too rare to come up three times on so few and so small
/// blocks. All other sorts of well-formed calls do.
const RARE: [&str; 7] = [
    "the same, behind padding",
    "the same, with no id left",
    "a split that takes the last id",
    "7 for what is free in parts",
    "8 beside a chunk that would be filled",
    "9 beside a chunk that would be filled",
    "renamed to 0",
];

#[test]
fn the_rules_are_shown() {
    let mut tally = CallTally::default();
    for step in runs::runs().iter().flatten() {
        tally.count(step);
    }
    println!("{tally}");
    assert_eq!(tally.calls, 362);
    let lists = [Sort::PLACED, Sort::ASKED, Sort::LIVE, Sort::DEAD];
    let names = lists.into_iter().flatten().map(|sort| sort.name);
    let (rare, shown): (Vec<_>, Vec<_>) = names.partition(|name| RARE.contains(name));
    assert_eq!(rare.len(), RARE.len());
    tally.sorts.assert_each(shown, 3);
}
