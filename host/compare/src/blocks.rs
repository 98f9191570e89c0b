//! A sample of the Rust's answers to calls on blocks, recorded for the program `replay`.
//!
//! It follows the sample of [`crate::pages`] in the same file, which is kept in the repository.

use std::fmt;
use std::iter;

use crate::caller::Caller;
use crate::calls::{answered, Answer, Call, Step, NO_ID};
use crate::generator::{any_size, any_slots};
use crate::leaks::{self, Stepped};
use crate::random::Random;
use crate::reading::read;
use crate::rust::Request;
use crate::table::{word_count, Table, LARGEST_BLOCK, MOST_SLOTS};
use crate::tracked::Tracked;

/// How many calls are recorded.
const CALLS: usize = 5_000;

/// How many chunks of a block are walked along at the most.
const WALKED: usize = 40;

const COMMENT: &str = "\
# Answers of gpu-allocator 0.28.0 with docs/oracle.patch, as host/compare's record_calls writes them: 5 a new block, \
6 allocate, 7 free, 8 rename, 9 the next id set by hand, 15 what is live from a place on, 16 a walk that is refused at its start
# Arguments, number, for 6 offset and id, for 6 to 8 the bytes allocated, for 5 to 9 a checksum of the words after it, which \
before 5 are 2^64 - 1, 2^64 - 2 and so on; the Rust has no slots, and the paper gives 1 to 6, 9, 10 and 13
# For 16 the number; for 15 the place, id, first byte, size, kind and label of the first live chunk of the Rust's that begins there or later, \
zeros where there is none, and the place after it
";

/// One line of the sample.
pub enum Line {
    /// A block of this size is made, of this many slots.
    New {
        /// Its size.
        size: u64,
        /// Its slots.
        slots: usize,
    },
    /// A call on that block.
    Call(Step),
    /// The next id is set by hand, and this is the table then.
    NextId(Table),
    /// A step of the leak walk from this place.
    Leak(u64, Stepped),
    /// A walk is refused at its start, with this number.
    Start(u64),
}

/// The sample: comments, then a line for each call.
pub fn recorded() -> String {
    let lines = lines().into_iter().map(|line| format!("{line}\n"));
    iter::once(COMMENT.to_owned()).chain(lines).collect()
}

/// The lines of the sample: the paper's examples, then random calls.
pub fn lines() -> Vec<Line> {
    let mut lines = Vec::new();
    lines.extend(checked_steps());
    lines.extend(limits());
    lines.extend(choices());
    // in this series each sort of steps comes up: tests/recorded_answers.rs counts
    let mut random = Random::seeded(1064);
    for slots in [1, 2, 64, 100, 200, MOST_SLOTS] {
        lines.extend(any_run(slots, (4 * slots).min(800), &mut random));
    }
    loop {
        let made = lines.iter().filter(|line| matches!(line, Line::Call(_)));
        let left = CALLS - made.count();
        if left == 0 {
            return lines;
        }
        let slots = any_slots(&mut random);
        lines.extend(any_run(slots, left.min(4 * slots), &mut random));
    }
}

/// The checked steps.
fn checked_steps() -> Vec<Line> {
    let request = |kind, size, alignment| {
        Call::Allocate(Request {
            size,
            alignment,
            kind,
            granularity: 1024,
            label: 0,
        })
    };
    let mut block = Recorded::new(4096, 8);
    for call in [
        request(1, 100, 1),
        request(2, 256, 64),
        request(1, 16, 16),
        Call::Free(2),
        request(1, 16, 1),
        request(2, 100, 1),
        Call::Free(3),
        Call::Free(2),
        Call::Free(2),
        request(1, 0, 1),
        request(1, 16, 0),
        request(1, 16, 3),
    ] {
        block.call(call);
    }
    block.lines
}

/// A request for so many bytes, so aligned.
fn bytes(size: u64, alignment: u64) -> Call {
    Call::Allocate(Request {
        size,
        alignment,
        kind: 1,
        granularity: 1,
        label: 7,
    })
}

/// Blocks that are filled, and slots and ids that are used up.
fn limits() -> Vec<Line> {
    let mut lines = Vec::new();
    for size in [0, LARGEST_BLOCK + 1] {
        // there is no block then, and a walk along no words is refused
        lines.extend([Line::New { size, slots: 8 }, start(&[])]);
    }
    for (slots, next_id, size) in [(8, 2, 4097), (1, 2, 1), (8, NO_ID, 1)] {
        let mut block = Recorded::new(4096, slots);
        block.set_next_id(next_id);
        block.call(bytes(size, 1));
        block.call(bytes(4096, 1));
        lines.extend(block.lines);
    }
    lines
}

/// The smallest chunk is chosen before ids and slots are looked at: it would be split, and a larger
/// one, which the alignment takes two bytes of, would be filled.
fn choices() -> Vec<Line> {
    let mut lines = Vec::new();
    for (slots, next_id) in [(4, 5), (4, NO_ID), (5, NO_ID), (5, NO_ID - 1)] {
        let mut block = Recorded::new(21, slots);
        for size in [5, 9, 6, 1] {
            block.call(bytes(size, 1));
        }
        block.call(Call::Free(2));
        block.call(Call::Free(4));
        block.set_next_id(next_id);
        block.call(bytes(4, 8));
        block.call(bytes(4, 8));
        lines.extend(block.lines);
    }
    lines
}

/// Random calls on one block, which is filled first; now and then with the last ids.
fn any_run(slots: usize, calls: usize, random: &mut Random) -> Vec<Line> {
    let mut sizes = iter::repeat_with(|| any_size(random));
    let size = sizes.find(|&size| size >= 4 * slots as u64);
    let size = size.expect("there is no end of sizes");
    let mut block = Recorded::new(size, slots);
    let mut caller = Caller::new(size, slots, random);
    let with_last_ids = random.once_in(3);
    if with_last_ids {
        // they may be used up before the slots, with them, or after them
        let any = random.below(2 * slots as u64);
        block.set_next_id(NO_ID - random.pick(&[slots as u64 - 1, any]));
    }
    for place in 0..calls {
        let table = block.block.table();
        let call = if place < calls / 2 {
            Call::Allocate(caller.request(&table, random))
        } else {
            caller.call(&table, random)
        };
        block.call(call);
    }
    block.walk();
    block.damage();
    block.lines
}

/// The start of a walk along these words, which are no sound table.
fn start(words: &[u64]) -> Line {
    Line::Start(leaks::start_expected(&read(words)))
}

/// A block of the Rust, and the lines that were recorded of it.
struct Recorded {
    block: Tracked,
    lines: Vec<Line>,
}

impl Recorded {
    fn new(size: u64, slots: usize) -> Self {
        Self {
            block: Tracked::new(size, slots),
            lines: vec![Line::New { size, slots }],
        }
    }

    fn set_next_id(&mut self, next_id: u64) {
        self.block.skip_ids(next_id - self.block.table().next_id);
        self.lines.push(Line::NextId(self.block.table()));
    }

    /// A walk from the start, then one that begins past it: to the end and once more, or some way.
    fn walk(&mut self) {
        let table = self.block.table();
        let middle = table.chunks[table.chunks.len() / 2].first;
        for start in [0, middle, middle + 1] {
            let mut place = start;
            for _ in 0..WALKED {
                let stepped = leaks::step(&table, place);
                self.lines.push(Line::Leak(place, stepped));
                if stepped.is_end() {
                    break;
                }
                place = stepped.place;
            }
            self.lines
                .push(Line::Leak(place, leaks::step(&table, place)));
        }
    }

    /// The next id set by hand to one that a chunk has, and a walk then: the last lines of the block.
    fn damage(&mut self) {
        let damaged = Table {
            next_id: 1,
            ..self.block.table()
        };
        let refused = start(&damaged.words());
        self.lines.extend([Line::NextId(damaged), refused]);
    }

    fn call(&mut self, call: Call) {
        let before = self.block.table();
        let answer = answered(&mut self.block, call);
        let after = self.block.table();
        self.lines.push(Line::Call(Step {
            before,
            call,
            answer,
            after,
        }));
    }
}

impl fmt::Display for Line {
    fn fmt(&self, f: &mut fmt::Formatter<'_>) -> fmt::Result {
        match self {
            Line::New { size, slots } => {
                let (number, words) = created(*size, *slots);
                write!(f, "5 {size} {slots} {number} {}", checksum(&words))
            }
            Line::NextId(table) => write!(f, "9 {} {}", table.next_id, checksum(&table.words())),
            Line::Start(number) => write!(f, "16 {number}"),
            Line::Leak(place, stepped) => {
                let [id, first, size, kind, label] = stepped.leak;
                write!(
                    f,
                    "15 {place} {id} {first} {size} {kind} {label} {}",
                    stepped.place
                )
            }
            Line::Call(step) => {
                let Answer { number, offset, id } = step.answer;
                match step.call {
                    Call::Allocate(Request {
                        size,
                        alignment,
                        kind,
                        granularity,
                        label,
                    }) => write!(
                        f,
                        "6 {size} {alignment} {kind} {granularity} {label} {number} {offset} {id}"
                    ),
                    Call::Free(id) => write!(f, "7 {id} {number}"),
                    Call::Rename(id, label) => write!(f, "8 {id} {label} {number}"),
                }?;
                write!(
                    f,
                    " {} {}",
                    step.after.allocated,
                    checksum(&step.after.words())
                )
            }
        }
    }
}

/// The number that creation answers, and the words after it, which held something else before.
fn created(size: u64, slots: usize) -> (u64, Vec<u64>) {
    if (1..=LARGEST_BLOCK).contains(&size) {
        return (0, Tracked::new(size, slots).table().words());
    }
    let spoilt = (0..word_count(slots) as u64).map(|place| u64::MAX - place);
    (13, spoilt.collect())
}

/// One number for all words of a table.
fn checksum(words: &[u64]) -> u64 {
    words.iter().fold(0, |sum: u64, word| {
        (sum.rotate_left(5) ^ word).wrapping_add(0x9e37_79b9_7f4a_7c15)
    })
}
