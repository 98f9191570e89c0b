//! Calls on words that no calls need have led to: sound tables of any kind, damaged ones, and words
//! that are no table. What was run is counted; `--nocapture` shows the counts.

use lunkaseyo_compare::both::Both;
use lunkaseyo_compare::call_tally::CallTally;
use lunkaseyo_compare::caller::Caller;
use lunkaseyo_compare::calls::{asked, expected, Call, NO_ID};
use lunkaseyo_compare::counts::Counts;
use lunkaseyo_compare::damage::{Damage, Turns};
use lunkaseyo_compare::generator::each_table;
use lunkaseyo_compare::parts::in_parts;
use lunkaseyo_compare::random::Random;
use lunkaseyo_compare::requests::faulty;
use lunkaseyo_compare::rust::Request;
use lunkaseyo_compare::sorts::Sort;
use lunkaseyo_compare::table::{Table, MOST_SLOTS};
use lunkaseyo_compare::tracked::Tracked;

/// Each part has a series of its own, so that the calls are the same on any number of threads.
const PARTS: u64 = 64;
const RUNS_OF_A_PART: usize = 100;

/// Tables that are seen along one run of calls.
const TABLES_OF_A_RUN: usize = 8;

/// Words before and behind those that are lent, which are to be left alone.
const MARGIN: usize = 16;

/// What was compared.
#[derive(Default)]
struct Compared {
    /// Calls on sound tables.
    sound: CallTally,
    /// Calls on damaged ones, by the damage.
    damages: Counts<&'static str>,
    /// The same, by what was called and the number that was answered.
    numbers: Counts<(&'static str, u64)>,
}

impl Compared {
    fn add(&mut self, other: Self) {
        self.sound.add(other.sound);
        self.damages.add(other.damages);
        self.numbers.add(other.numbers);
    }

    /// Two calls on a sound table, one after the other, now and then with its last ids.
    fn compare_sound(&mut self, table: &Table, random: &mut Random) {
        let mut caller = Caller::new(table.size, table.slots, random);
        let mut both = Both::of(table.clone());
        if random.once_in(4) {
            let last_ids = NO_ID - random.below(2);
            both.set_next_id(table.next_id.max(last_ids));
        }
        for _ in 0..2 {
            let call = caller.call(both.table(), random);
            self.sound.count(&both.call(call));
        }
    }

    /// One call, which the table might accept, on the same table with a damage; and another with
    /// faults of its own.
    fn compare_spoilt(&mut self, table: &Table, damages: &mut Turns, random: &mut Random) {
        let (damage, words) = damages.spoil(table, random);
        let call = Caller::new(table.size, table.slots, random).call(table, random);
        for (name, call) in [(name(call), call), with_faults(call, random)] {
            let number = compare(&words, call, random);
            self.damages.count(damage.name);
            self.numbers.count((name, number));
        }
    }
}

fn name(call: Call) -> &'static str {
    match call {
        Call::Allocate(_) => "allocate",
        Call::Free(_) => "free",
        Call::Rename(..) => "rename",
    }
}

/// The call with every fault, or some, that it can have beside the table's.
fn with_faults(call: Call, random: &mut Random) -> (&'static str, Call) {
    match call {
        Call::Allocate(request) => (
            "allocate with faults",
            Call::Allocate(faulty(request, random)),
        ),
        Call::Free(_) => ("free of id 0", Call::Free(0)),
        Call::Rename(_, label) => ("rename of id 0", Call::Rename(0, label)),
    }
}

/// Makes a call on any words, and gives the number that is answered.
fn compare(words: &[u64], call: Call, random: &mut Random) -> u64 {
    let (answer, after) = expected(words, call);
    let lent = MARGIN..MARGIN + words.len();
    let mut room: Vec<u64> = (0..lent.end + MARGIN).map(|_| random.word()).collect();
    room[lent.clone()].copy_from_slice(words);
    let mut right = room.clone();
    right[lent.clone()].copy_from_slice(&after);
    assert_eq!(
        asked(&mut room[lent], call),
        answer,
        "{call:?} on {words:?}"
    );
    assert!(room == right, "{call:?} on {words:?}: {room:?}");
    answer.number
}

/// One part of the calls.
fn compare_part(part: u64) -> Compared {
    let mut compared = Compared::default();
    let mut random = Random::seeded(part);
    let lists = [Damage::ONE_WORD, Damage::SEVERAL_WORDS, Damage::WORD_COUNT];
    let mut damages = lists.map(Turns::of);
    each_table(
        &mut random,
        [RUNS_OF_A_PART, TABLES_OF_A_RUN],
        |table, random| {
            compared.compare_sound(table, random);
            for damages in &mut damages {
                compared.compare_spoilt(table, damages, random);
            }
        },
    );
    compared
}

#[test]
fn any_tables() {
    let Compared {
        sound,
        damages,
        numbers,
    } = in_parts(PARTS, compare_part, Compared::add);
    println!("{sound}\n{damages:?}\n{numbers:?}");
    assert!(sound.calls >= 300_000);
    let sorts = Sort::all().map(|sort| sort.name);
    sound.sorts.assert_each(sorts, 100);
    let damaged: u64 = Damage::all().map(|damage| damages.of(&damage.name)).sum();
    assert!(damaged >= 900_000);
    damages.assert_each(Damage::all().map(|damage| damage.name), 1_000);
    for call in ["allocate", "allocate with faults", "free", "rename"] {
        numbers.assert_each([(call, 1), (call, 2)], 5_000);
    }
    for call in ["free of id 0", "rename of id 0"] {
        numbers.assert_each([(call, 1), (call, 2)], 5_000);
    }
    // a damage may leave a sound table
    numbers.assert_each(
        [3, 4, 5, 6].map(|number| ("allocate with faults", number)),
        100,
    );
}

#[test]
fn every_word_count() {
    let mut random = Random::seeded(16);
    let bytes = |size| {
        Call::Allocate(Request {
            size,
            alignment: 1,
            kind: 1,
            granularity: 1,
            label: 7,
        })
    };
    let longest = Tracked::new(4096, MOST_SLOTS + 3).table().words();
    for count in 0..=longest.len() {
        for call in [bytes(100), bytes(0), Call::Free(0), Call::Rename(1, 7)] {
            compare(&longest[..count], call, &mut random);
        }
    }
}
