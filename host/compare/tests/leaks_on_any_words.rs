//! Starts and steps of the leak walk on damaged tables, and on words that are no table: the number, the
//! place and what is handed out. What was run is counted; `--nocapture` shows the counts.

use lunkaseyo_compare::counts::Counts;
use lunkaseyo_compare::damage::{Damage, Turns};
use lunkaseyo_compare::generator::each_table;
use lunkaseyo_compare::leaks::{asked, expected, places, start_expected, started};
use lunkaseyo_compare::parts::in_parts;
use lunkaseyo_compare::random::Random;
use lunkaseyo_compare::reading::{read, Reading, Rule};
use lunkaseyo_compare::table::{Table, MOST_SLOTS};
use lunkaseyo_compare::tracked::Tracked;

/// Each part has a series of its own, so that the tables are the same on any number of threads.
const PARTS: u64 = 64;
const RUNS_OF_A_PART: usize = 60;

/// Tables that are seen along one run of calls.
const TABLES_OF_A_RUN: usize = 4;

/// What was compared.
#[derive(Default)]
struct Compared {
    /// Damaged tables, by the damage.
    damages: Counts<&'static str>,
    /// The same, by the rule that they break and no other.
    rules: Counts<Rule>,
    /// The same, by the number that the start answers.
    numbers: Counts<u64>,
}

impl Compared {
    fn add(&mut self, other: Self) {
        self.damages.add(other.damages);
        self.rules.add(other.rules);
        self.numbers.add(other.numbers);
    }

    /// A start, and steps from some places of the table as it was, on the next damage of it.
    fn compare_spoilt(&mut self, table: &Table, damages: &mut Turns, random: &mut Random) {
        let (damage, words) = damages.spoil(table, random);
        let places = places(table, random);
        let some = [0, 0, random.pick(&places), random.pick(&places)];
        let reading = compare(&words, some);
        self.damages.count(damage.name);
        self.numbers.count(start_expected(&reading));
        if let Reading::Unsound(rules) = &reading {
            if let [rule] = rules[..] {
                self.rules.count(rule);
            }
        }
    }
}

/// A start, and steps from these places, on any words. It gives what the words say.
fn compare(words: &[u64], places: impl IntoIterator<Item = u64>) -> Reading {
    let reading = read(words);
    let start = (start_expected(&reading), 0);
    assert_eq!(started(words), start, "{reading:?}: {words:?}");
    for place in places {
        let stepped = asked(words, place);
        let right = expected(&reading, place);
        assert_eq!(stepped, right, "from {place}, {reading:?}: {words:?}");
    }
    reading
}

/// One part of the tables.
fn compare_part(part: u64) -> Compared {
    let mut compared = Compared::default();
    let mut random = Random::seeded(part);
    let lists = [Damage::ONE_WORD, Damage::SEVERAL_WORDS, Damage::WORD_COUNT];
    let mut damages = lists.map(Turns::of);
    each_table(
        &mut random,
        [RUNS_OF_A_PART, TABLES_OF_A_RUN],
        |table, random| {
            for damages in &mut damages {
                compared.compare_spoilt(table, damages, random);
            }
        },
    );
    compared
}

#[test]
fn damaged_tables() {
    let compared = in_parts(PARTS, compare_part, Compared::add);
    let Compared {
        damages,
        rules,
        numbers,
    } = compared;
    println!("{damages:?}\n{rules:?}\n{numbers:?}");
    damages.assert_each(Damage::all().map(|damage| damage.name), 200);
    numbers.assert_each([0, 1, 2], 10_000);
    // that rule follows from the others
    let alone = Rule::ALL.into_iter().filter(|&rule| rule != Rule::NextId);
    rules.assert_each(alone, 300);
}

#[test]
fn every_word_count() {
    let longest = Tracked::new(4096, MOST_SLOTS + 3).table().words();
    for count in 0..=longest.len() {
        compare(&longest[..count], [0, 1, u64::MAX]);
    }
    // from 2^9 slots on, counts whose low bits are those of a table
    for bits in [9, 10, 16] {
        let mut words = longest[..11].to_vec();
        words.resize((7 << bits) + 11, 0);
        assert_eq!(compare(&words, [0, u64::MAX]), Reading::NotATable);
    }
}

#[test]
fn every_table_of_one_slot_and_numbers_to_2() {
    let mut sound = 0;
    let mut words = [0; 11];
    for number in 0..3_u64.pow(11) {
        for (place, word) in words.iter_mut().enumerate() {
            *word = number / 3_u64.pow(place as u32) % 3;
        }
        let reading = compare(&words, [0, 1, 2, u64::MAX]);
        sound += u64::from(matches!(reading, Reading::Sound(_)));
    }
    // a block of 1 or 2 bytes, free, or live of either kind with one of three labels
    assert_eq!(sound, 2 * (1 + 2 * 3));
}
