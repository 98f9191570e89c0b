//! The files of lines: each sort of answer comes up, and a seed gives the same lines in every run.

use std::collections::BTreeMap;

use lunkaseyo_oracle_blockbench::bench::{Answer, Bench};
use lunkaseyo_oracle_blockbench::block::MOST_SLOTS;
use lunkaseyo_oracle_blockbench::files::{write_calls, write_damaged};

const LINES: u64 = 100_000;

fn file(write: fn(u64, u64, &mut Vec<u8>) -> std::io::Result<()>, seed: u64) -> Vec<u8> {
    let mut lines = Vec::new();
    write(seed, LINES, &mut lines).expect("memory takes all that is written");
    lines
}

fn calls(seed: u64) -> Vec<u8> {
    file(|seed, lines, output| write_calls(seed, lines, output), seed)
}

fn damaged(seed: u64) -> Vec<u8> {
    file(
        |seed, lines, output| write_damaged(seed, lines, output),
        seed,
    )
}

/// How many lines got which answer: by their first byte, and by the number, or none.
fn tally(lines: &[u8]) -> BTreeMap<(char, Option<u64>), u64> {
    let mut bench = Bench::default();
    let mut tally = BTreeMap::new();
    for line in lines.split(|&byte| byte == b'\n') {
        let number = match bench.answer(line) {
            Answer::Unreadable => None,
            Answer::Numbers { number, .. } => Some(number),
        };
        let letter = line.first().map_or(' ', |&byte| char::from(byte));
        *tally.entry((letter, number)).or_default() += 1;
    }
    tally
}

#[test]
fn calls_have_each_sort_of_answer() {
    let tally = tally(&calls(1));
    let often = [
        ('n', 0),
        ('a', 0),
        ('a', 3),
        ('a', 4),
        ('a', 5),
        ('a', 6),
        ('a', 7),
        ('a', 9),
        ('f', 0),
        ('f', 10),
    ];
    for (letter, number) in often {
        let count = tally.get(&(letter, Some(number)));
        assert!(count >= Some(&200), "{letter} {number}: {tally:?}");
    }
    for sort in [('n', Some(13)), ('n', None), ('a', None), ('f', None)] {
        assert!(tally.get(&sort) >= Some(&10), "{sort:?}: {tally:?}");
    }
}

#[test]
fn damaged_lines_are_of_all_sorts() {
    let lines = damaged(1);
    assert_ne!(lines.last(), Some(&b'\n'));
    let tally = tally(&lines);
    let unreadable: u64 = tally
        .iter()
        .filter(|((_, number), _)| number.is_none())
        .map(|(_, count)| count)
        .sum();
    assert!(unreadable > LINES / 2, "{unreadable} are unreadable");
    for sort in [
        ('n', Some(0)),
        ('n', Some(13)),
        ('n', None),
        ('a', Some(0)),
        ('f', Some(0)),
        (' ', None),
        ('r', None),
    ] {
        assert!(tally.get(&sort) >= Some(&200), "{sort:?}: {tally:?}");
    }
    let longest = lines.split(|&byte| byte == b'\n').map(<[u8]>::len).max();
    assert!(longest > Some(100_000), "{longest:?}");
}

#[test]
fn a_seed_decides_the_lines() {
    assert!(calls(7) == calls(7) && damaged(7) == damaged(7));
    assert!(calls(7) != calls(8) && damaged(7) != damaged(8));
}

#[test]
fn files_have_long_runs_and_fill_the_largest_tables() {
    let (mut longest, mut run, mut refused) = (0, 0, 0);
    let mut bench = Bench::default();
    let lines: Vec<u8> = (1..=10).flat_map(calls).collect();
    for line in lines.split(|&byte| byte == b'\n') {
        let answer = bench.answer(line);
        let is_new = line.first() == Some(&b'n') && answer != Answer::Unreadable;
        run = if is_new { 0 } else { run + 1 };
        longest = longest.max(run);
        let has_most_slots = bench
            .block()
            .map_or(false, |block| block.slots() == MOST_SLOTS);
        if has_most_slots && matches!(answer, Answer::Numbers { number: 9, .. }) {
            refused += 1;
        }
    }
    assert!(longest > 10_000, "the longest run has {longest} calls");
    assert!(refused > 100, "512 slots were too few {refused} times");
}
