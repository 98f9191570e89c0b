//! Whether a table is sound: two million tables, most of them damaged, by the library and by the
//! reading of the rules. What was run is counted; `--nocapture` shows the counts.

use std::collections::HashSet;
use std::iter;

use lunkaseyo::ffi;
use lunkaseyo_compare::damage::{Damage, Leaves, Turns};
use lunkaseyo_compare::generator::{rearranged, Run};
use lunkaseyo_compare::parts::in_parts;
use lunkaseyo_compare::random::Random;
use lunkaseyo_compare::reading::{read, Reading, Rule};
use lunkaseyo_compare::table::{Table, MOST_SLOTS};
use lunkaseyo_compare::tally::Tally;

/// Each part has a series of its own, so that the tables are the same on any number of threads.
const PARTS: u64 = 64;
const TABLES_OF_A_PART: u64 = 32_000;

/// Tables that are seen along one run of calls.
const TABLES_OF_A_RUN: usize = 8;

/// What out-values hold before a call.
const SPOILT: u64 = 0xA5A5_A5A5_A5A5_A5A5;

/// Compares both questions on any words, and gives what the words say.
fn compare(words: &[u64]) -> Reading {
    let reading = read(words);
    let (number, allocated, is_empty) = match &reading {
        Reading::NotATable => (1, 0, 0),
        Reading::Unsound(_) => (2, 0, 0),
        Reading::Sound(table) => (0, table.allocated, u64::from(table.allocated == 0)),
    };
    let asked = |question: fn(&[u64], &mut u64) -> u64| {
        let mut out = SPOILT;
        (question(words, &mut out), out)
    };
    let answers = (asked(ffi::block_allocated), asked(ffi::block_is_empty));
    let expected = ((number, allocated), (number, is_empty));
    assert_eq!(answers, expected, "{reading:?}: {words:?}");
    reading
}

/// A sound table, as it is.
fn compare_sound(table: Table, tally: &mut Tally) {
    let words = table.words();
    let reading = compare(&words);
    tally.count("nothing", words.len(), &reading);
    assert_eq!(reading, Reading::Sound(table));
}

/// A sound table with the next damage that it has a place for.
fn compare_spoilt(damages: &mut Turns, table: &Table, random: &mut Random, tally: &mut Tally) {
    let (damage, words) = damages.spoil(table, random);
    let reading = compare(&words);
    tally.count(damage.name, words.len(), &reading);
    let is_left = match damage.leaves {
        Leaves::NotATable => reading == Reading::NotATable,
        Leaves::Only(rule) => reading == Reading::Unsound(vec![rule]),
        Leaves::Unsound => matches!(reading, Reading::Unsound(_)),
        Leaves::Sound => matches!(reading, Reading::Sound(_)),
        Leaves::Any => true,
    };
    assert!(is_left, "{}: {reading:?} of {table:?}", damage.name);
}

/// One part of the tables.
fn compare_part(part: u64) -> Tally {
    let mut tally = Tally::default();
    let mut random = Random::seeded(part);
    let mut one_word = Turns::of(Damage::ONE_WORD);
    let mut several_words = Turns::of(Damage::SEVERAL_WORDS);
    let mut word_count = Turns::of(Damage::WORD_COUNT);
    while tally.said().tables() < TABLES_OF_A_PART {
        let mut run = Run::start(&mut random);
        for _ in 0..TABLES_OF_A_RUN {
            let called = run.next_table(&mut random);
            for table in [rearranged(called.clone(), &mut random), called] {
                for _ in 0..3 {
                    compare_spoilt(&mut one_word, &table, &mut random, &mut tally);
                }
                compare_spoilt(&mut several_words, &table, &mut random, &mut tally);
                if random.once_in(8) {
                    compare_spoilt(&mut word_count, &table, &mut random, &mut tally);
                }
                compare_sound(table, &mut tally);
            }
        }
    }
    tally
}

#[test]
fn two_million_tables() {
    let tally = in_parts(PARTS, compare_part, Tally::add);
    println!("{tally}");
    let tables = tally.said().tables();
    let of_one_word: u64 = Damage::ONE_WORD
        .iter()
        .map(|damage| tally.after(damage.name).unsound)
        .sum();
    assert!(tables >= 2_000_000);
    assert!(of_one_word >= tables / 2, "{of_one_word} of {tables}");

    for damage in Damage::all() {
        let said = tally.after(damage.name);
        assert!(said.tables() >= 2_000, "{}: {said:?}", damage.name);
    }
    for rule in Rule::ALL {
        // "Next id at least 2" follows from the others: there is a chunk, and its id is at least 1
        // and below next id.
        let is_implied = rule == Rule::NextId;
        let alone = tally.broke(&[rule]);
        assert_eq!(alone == 0, is_implied, "{rule:?} alone: {alone}");
        assert!(is_implied || alone >= 5_000, "{rule:?} alone: {alone}");
    }
    assert!(tally.broke(&[Rule::NextId, Rule::IdsBelowNext]) >= 5_000);

    assert!(tally.remainders.iter().all(|&count| count >= 1_000));
    assert!([1, 2, 20, 64, MOST_SLOTS]
        .iter()
        .all(|slots| tally.slots[slots] >= 1_000));
}

#[test]
fn every_table_of_one_slot_and_numbers_to_2() {
    let mut sound = 0;
    let mut words = [0; 11];
    for number in 0..3_u64.pow(11) {
        for (place, word) in words.iter_mut().enumerate() {
            *word = number / 3_u64.pow(place as u32) % 3;
        }
        sound += u64::from(matches!(compare(&words), Reading::Sound(_)));
    }
    // a block of 1 or 2 bytes, free, or live of either kind with one of three labels
    assert_eq!(sound, 2 * (1 + 2 * 3));
}

#[test]
fn every_two_words_of_small_tables() {
    let mut random = Random::seeded(2);
    let tables = iter::repeat_with(|| Run::start(&mut random).next_table(&mut random));
    for table in tables.filter(|table| table.slots <= 4).take(24) {
        let words = table.words();
        for (one, other) in (0..words.len()).flat_map(|one| (0..one).map(move |two| (one, two))) {
            let mut spoilt = words.clone();
            for first in small_changes(words[one]) {
                for second in small_changes(words[other]) {
                    spoilt[one] = first;
                    spoilt[other] = second;
                    compare(&spoilt);
                }
            }
        }
    }
}

/// Small numbers, and others near a word.
fn small_changes(word: u64) -> [u64; 7] {
    let (down, up) = (word.wrapping_sub(1), word.wrapping_add(1));
    [0, 1, 2, 3, down, up, word ^ 1 << 63]
}

#[test]
fn damages_of_one_word_change_one_word() {
    let mut random = Random::seeded(1);
    for _ in 0..1_000 {
        let table = Run::start(&mut random).next_table(&mut random);
        let words = table.words();
        for damage in Damage::ONE_WORD {
            let Some(spoilt) = damage.spoil(&table, &mut random) else {
                continue;
            };
            assert_eq!(spoilt.len(), words.len());
            let differ = words.iter().zip(&spoilt).filter(|(old, new)| old != new);
            assert_eq!(differ.count(), 1, "{}", damage.name);
        }
    }
}

#[test]
fn damages_have_names_of_their_own() {
    let names: HashSet<&str> = Damage::all().map(|damage| damage.name).collect();
    assert_eq!(names.len(), Damage::all().count());
}
