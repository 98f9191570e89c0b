//! No byte outside of what is lent is read or written: every slice and out-value lies flush against a page
//! that nobody may touch, once at its front and once at its back. Words that are lent to be read, those of a
//! call on a table that is refused, and the buffer of a text that is, lie in pages that may only be read. A
//! wrong access ends the process. What was called is counted; `--nocapture` shows the counts.

mod declared;
mod guard;

use std::collections::{BTreeMap, BTreeSet};
use std::os::unix::process::ExitStatusExt;
use std::thread;

use guard::calls::{self, called, Call, Called, Use};
use guard::memory::{Access, Fenced, Side};
use guard::tables;
use guard::touch::Touch;
use lunkaseyo::Block;

/// What out-values hold before a call.
const SPOILT: u64 = 0xA5A5_A5A5_A5A5_A5A5;

/// What a call answers: its function and number, the words after it, and its out-values.
type Answer = (Called, Vec<u64>, [Vec<u64>; 2]);

fn on_plain_memory(call: &Call, words: &[u64]) -> Answer {
    let mut words = words.to_vec();
    let mut outs = call.outs.map(|count| vec![SPOILT; count]);
    let [first, second] = &mut outs;
    let called = (call.make)(&mut words, first, second);
    (called, words, outs)
}

/// What a call that answers this number may do with its words.
fn access(of_words: Use, number: u64) -> Access {
    match of_words {
        Use::Reads => Access::Read,
        Use::WritesIfAccepted if number != 0 => Access::Read,
        _ => Access::ReadWrite,
    }
}

/// What was called in fenced memory.
#[derive(Debug, Default)]
struct Made {
    /// How often, by the function.
    functions: BTreeMap<&'static str, u64>,
    /// How often with words, or a buffer, that could only be read.
    only_read: u64,
    /// The numbers that were answered.
    numbers: BTreeSet<u64>,
}

impl Made {
    fn count(&mut self, (function, number): Called, access: Access) {
        *self.functions.entry(function).or_default() += 1;
        self.only_read += u64::from(access == Access::Read);
        self.numbers.insert(number);
    }

    fn add(&mut self, other: Self) {
        for (function, count) in other.functions {
            *self.functions.entry(function).or_default() += count;
        }
        self.only_read += other.only_read;
        self.numbers.extend(other.numbers);
    }

    /// Fails unless just these numbers were answered.
    fn answered(self, numbers: impl IntoIterator<Item = u64>) -> Self {
        assert_eq!(self.numbers, numbers.into_iter().collect());
        self
    }
}

/// Fenced memory for one call at a time, and what was called in it.
struct Guard {
    words: Fenced,
    outs: [Fenced; 2],
    made: Made,
}

impl Guard {
    fn new(words: usize) -> Self {
        Self {
            words: Fenced::new(words * 8),
            outs: [Fenced::new(40), Fenced::new(40)],
            made: Made::default(),
        }
    }

    fn answer(&mut self, call: &Call, words: &[u64], side: Side, access: Access) -> Answer {
        let words = self.words.lend(words, side, access);
        let [first, second] = &mut self.outs;
        let spoilt = call.outs.map(|count| vec![SPOILT; count]);
        let first = first.lend(&spoilt[0], side, Access::ReadWrite);
        let second = second.lend(&spoilt[1], side, Access::ReadWrite);
        let called = (call.make)(words, first, second);
        self.made.count(called, access);
        (called, words.to_vec(), [first.to_vec(), second.to_vec()])
    }

    /// Makes each call on these words on both sides. One that is to write no word gets pages that may only be
    /// read.
    fn make(&mut self, calls: &[Call], words: &[u64]) {
        for call in calls {
            let expected = on_plain_memory(call, words);
            let (_, number) = expected.0;
            let access = access(call.of_words, number);
            for side in Side::BOTH {
                let answer = self.answer(call, words, side, access);
                let name = &call.name;
                assert_eq!(answer, expected, "{name} on {words:?} at the {side:?}");
            }
        }
    }
}

/// A few of a table's ids, the first among them.
fn some_ids(words: &[u64]) -> Vec<u64> {
    let ids = tables::ids(words);
    let step = (ids.len() / 3).max(1);
    ids.into_iter().step_by(step).collect()
}

/// Tables small enough to be damaged word by word.
fn small_tables() -> [Vec<u64>; 4] {
    [
        tables::fresh(4096, 1),
        tables::fresh(4096, 8),
        tables::after_many_calls(8),
        tables::full(8),
    ]
}

fn sound_tables() -> Made {
    let mut guard = Guard::new(Block::words(512));
    for table in small_tables().into_iter().chain([
        tables::without_ids(2),
        tables::fresh(1 << 40, 512),
        tables::after_many_calls(64),
        tables::after_many_calls(512),
        tables::full(512),
    ]) {
        guard.make(&calls::on_a_table(&tables::ids(&table)), &table);
    }
    // not 1 and 2, for none is too short or unsound
    guard.made.answered([0, 3, 4, 5, 6, 7, 8, 9, 10, 13])
}

fn unsound_tables() -> Made {
    let mut guard = Guard::new(Block::words(8));
    for table in small_tables() {
        let calls = calls::on_a_table(&tables::ids(&table));
        for damaged in tables::damaged(&table) {
            guard.make(&calls, &damaged);
        }
    }
    guard.made.answered([0, 2, 3, 4, 5, 6, 7, 8, 9, 10, 13])
}

fn truncated_tables() -> Made {
    let mut guard = Guard::new(Block::words(513));
    let large = [tables::after_many_calls(512), vec![0; Block::words(513)]];
    for table in small_tables().into_iter().chain(large) {
        let calls = calls::on_a_table(&some_ids(&table));
        for length in 0..=table.len() {
            guard.make(&calls, &table[..length]);
        }
    }
    guard.made.answered([0, 1, 2, 3, 4, 5, 6, 7, 9, 10, 13])
}

fn records() -> Made {
    let mut guard = Guard::new(3);
    let calls = calls::on_a_record();
    let words = [0, 1, 4095, 4096, 1 << 63, u64::MAX];
    for size in words {
        for allocated in words {
            guard.make(&calls, &[size, allocated, 5]);
        }
    }
    guard.made.answered([0, 2, 3, 4, 5, 6, 11, 12, 13, 18])
}

fn sizes() -> Made {
    let mut guard = Guard::new(0);
    let sizes = [0, 5 << 20, 8 << 20, 256 << 20, u64::MAX];
    for device in sizes {
        for host in sizes {
            guard.make(&calls::with_sizes([device, device, host, host]), &[]);
        }
    }
    guard.made.answered([0, 14])
}

fn texts() -> Made {
    let (mut bytes, mut written) = (Fenced::new(12), Fenced::new(8));
    let mut made = Made::default();
    for amount in [0, 10, 1023, 1152, 1048575, (1 << 50) - 1, 1 << 50, u64::MAX] {
        for length in 0..=12 {
            let mut expected = ([b'#'; 12], SPOILT);
            let (_, number) = called!(fmt_bytes(
                amount,
                &mut expected.0[..length],
                &mut expected.1
            ));
            let access = access(Use::WritesIfAccepted, number);
            for side in Side::BOTH {
                let buf = bytes.lend(&vec![b'#'; length], side, access);
                let out = written.lend(&[SPOILT], side, Access::ReadWrite);
                let called = called!(fmt_bytes(amount, buf, &mut out[0]));
                made.count(called, access);
                assert_eq!(called.1, number);
                assert_eq!((&*buf, out[0]), (&expected.0[..length], expected.1));
            }
        }
    }
    made.answered([0, 15, 16])
}

#[test]
fn half_a_million_calls_of_every_function() {
    let parts = [
        sound_tables,
        unsound_tables,
        truncated_tables,
        records,
        sizes,
        texts,
    ];
    let mut made = Made::default();
    for part in parts.map(thread::spawn) {
        made.add(part.join().expect("each call answers as it does elsewhere"));
    }
    println!("{made:?}");
    let called = made.functions.keys();
    let names: BTreeSet<String> = called.map(|name| format!("lunkaseyo_{name}")).collect();
    assert_eq!(names, declared::names_in("lunkaseyo.h"));
    let calls: u64 = made.functions.values().sum();
    assert!(calls >= 500_000, "{calls} calls");
    assert!(2 * made.only_read > calls, "{} of {calls}", made.only_read);
}

#[test]
fn a_wrong_access_ends_the_process() {
    if let Some(touch) = Touch::asked_for() {
        return touch.make();
    }
    const SIGSEGV: i32 = 11;
    for touch in Touch::all() {
        let ended = touch.in_a_child("a_wrong_access_ends_the_process");
        if touch.is_wrong() {
            assert_eq!(ended.signal(), Some(SIGSEGV), "{touch:?}: {ended}");
        } else {
            assert!(ended.success(), "{touch:?}: {ended}");
        }
    }
}
