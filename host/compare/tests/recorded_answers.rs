//! The recorded sample in the repository is what the Rust answers now, and it shows each rule.

use std::ops::RangeBounds;

use lunkaseyo_compare::blocks::{self, Line};
use lunkaseyo_compare::call_tally::CallTally;
use lunkaseyo_compare::dedicated;
use lunkaseyo_compare::kept::assert_kept;
use lunkaseyo_compare::pages;
use lunkaseyo_compare::sorts::Sort;

#[test]
fn the_sample_is_what_the_rust_answers() {
    let recorded = pages::recorded() + &blocks::recorded() + &dedicated::recorded::recorded();
    assert_kept("crates/replay/stdin", &recorded);
    assert!(recorded.len() < 1_500_000);
}

/// How many lines of a sample begin with one of these numbers.
fn count(recorded: &str, functions: impl RangeBounds<u64>) -> usize {
    let answers = recorded.lines().filter(|line| !line.starts_with('#'));
    let function = |line: &str| line.split(' ').next().and_then(|field| field.parse().ok());
    let numbers = answers.map(|line| function(line).expect("a line begins with a number"));
    numbers.filter(|number| functions.contains(number)).count()
}

/// The counts that README quotes, and that of the lines that the program `replay` is to agree with.
#[test]
fn the_sample_has_so_many_lines_of_each_kind() {
    let recorded = pages::recorded() + &blocks::recorded() + &dedicated::recorded::recorded();
    let counts = [1..=4, 5..=9, 15..=15, 16..=16, 10..=14].map(|kind| count(&recorded, kind));
    assert_eq!(counts, [10_000, 5_175, 1_003, 69, 3_999]);
    let agreed = format!("{} agree, 0 differ\n", count(&recorded, ..));
    assert_kept("crates/replay/stdout", &agreed);
}

#[test]
fn the_sample_has_five_thousand_calls_of_every_sort() {
    let mut tally = CallTally::default();
    for line in blocks::lines() {
        if let Line::Call(step) = line {
            tally.count(&step);
        }
    }
    println!("{tally}");
    assert_eq!(tally.calls, 5_000);
    tally
        .sorts
        .assert_each(Sort::all().map(|sort| sort.name), 3);
}

#[test]
fn the_sample_has_walks_to_the_end_and_past_padding() {
    let mut steps = 0;
    let mut ends = 0;
    for line in blocks::lines() {
        if let Line::Leak(_, stepped) = line {
            steps += 1;
            ends += u64::from(stepped.is_end());
        }
    }
    println!("{steps} steps, {ends} of them at an end");
    assert!(steps > 1_000 && ends > 100 && steps > 2 * ends);
}

#[test]
fn the_sample_has_walks_that_are_refused_at_their_start() {
    let mut numbers = [0; 3];
    for line in blocks::lines() {
        if let Line::Start(number) = line {
            numbers[number as usize] += 1;
        }
    }
    println!("{numbers:?} starts that are refused with 0, 1 and 2");
    assert!(numbers[0] == 0 && numbers[1] > 0 && numbers[2] > 50);
}

#[test]
fn the_sample_has_two_thousand_calls_on_dedicated_blocks_of_every_sort() {
    let mut tally = dedicated::tally::Tally::default();
    let mut reports = 0;
    for step in dedicated::recorded::steps() {
        reports += u64::from(matches!(step.call, dedicated::calls::Call::Report));
        tally.count(&step);
    }
    println!("{tally}");
    assert_eq!(tally.calls - reports, dedicated::recorded::CALLS as u64);
    let asked = [
        "the total of an empty block",
        "the total of an occupied block",
        "empty",
        "not empty",
    ];
    let sorts = dedicated::sorts::Sort::all().map(|sort| sort.name);
    tally
        .sorts
        .assert_each(sorts.filter(|name| !asked.contains(name)), 1);
}
