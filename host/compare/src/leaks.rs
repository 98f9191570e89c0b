//! Steps of the leak walk: what the library answers, the right answers to hold against it, and what steps
//! come to.

pub mod sorts;
pub mod tally;

use lunkaseyo::ffi::{self, Leak};

use crate::random::Random;
use crate::reading::Reading;
use crate::table::{Chunk, Table};

/// What out-values, and the words beside those that are lent, hold before a call.
const SPOILT: u64 = 0xA5A5_A5A5_A5A5_A5A5;

/// Up to this size every address of a block is a place to step from.
const SMALL: u64 = 64;

/// Of more chunks than this, some are stepped from.
const MANY: usize = 48;

/// What is handed out at the end of a walk, and on a refusal.
pub const NOTHING: Leak = [0; 5];

/// What a step answers.
#[derive(Clone, Copy, Debug, PartialEq, Eq)]
pub struct Stepped {
    /// 0, or the refusal's number.
    pub number: u64,
    /// The live chunk that is handed out: id, first byte, size, kind, label.
    pub leak: Leak,
    /// The place after the step.
    pub place: u64,
}

impl Stepped {
    /// A step that hands out nothing, and leaves the place as it was.
    pub const fn nothing(number: u64, place: u64) -> Self {
        Self {
            number,
            leak: NOTHING,
            place,
        }
    }

    /// Whether the walk is over.
    pub fn is_end(&self) -> bool {
        self.number == 0 && self.leak == NOTHING
    }
}

// ---- the library

/// The number and the place that the library answers at a start. Fails where a word is changed.
pub fn started(words: &[u64]) -> (u64, u64) {
    let before = words.to_vec();
    let mut out = [SPOILT; 3];
    let number = ffi::leaks_start(words, &mut out[1]);
    assert!(before == words, "a start changes words");
    let [left, place, right] = out;
    assert_eq!([left, right], [SPOILT; 2], "words that were not lent");
    (number, place)
}

/// What the library answers to a step from a place. Fails where a word is changed.
pub fn asked(words: &[u64], place: u64) -> Stepped {
    let before = words.to_vec();
    let mut places = [SPOILT, place, SPOILT];
    let mut leaks = [[SPOILT; 5]; 3];
    let number = ffi::leaks_step(words, &mut places[1], &mut leaks[1]);
    assert!(before == words, "a step changes words");
    let [left, place, right] = places;
    assert_eq!([left, right], [SPOILT; 2], "words that were not lent");
    let [left, leak, right] = leaks;
    assert_eq!([left, right], [[SPOILT; 5]; 2], "words that were not lent");
    Stepped {
        number,
        leak,
        place,
    }
}

// ---- the right answers

/// The right answer to a start: its number. The place is 0 in any case.
pub fn start_expected(reading: &Reading) -> u64 {
    match reading {
        Reading::NotATable => 1,
        Reading::Unsound(_) => 2,
        Reading::Sound(_) => 0,
    }
}

/// The right answer to a step from a place, on words that say this.
pub fn expected(reading: &Reading, place: u64) -> Stepped {
    match reading {
        Reading::Sound(table) => step(table, place),
        _ => Stepped::nothing(start_expected(reading), place),
    }
}

/// The same on a sound table: of all live chunks that begin at the place or later, whatever their order,
/// the one at the lowest address.
pub fn step(table: &Table, place: u64) -> Stepped {
    let from = live(table).filter(|chunk| chunk.first >= place);
    let lowest = from.min_by_key(|chunk| chunk.first);
    lowest.map_or(Stepped::nothing(0, place), |chunk| Stepped {
        number: 0,
        leak: leak(chunk),
        place: chunk.first + chunk.size,
    })
}

/// The chunks that are not free.
pub fn live(table: &Table) -> impl Iterator<Item = &Chunk> {
    table.chunks.iter().filter(|chunk| !chunk.is_free())
}

/// What is handed out of a live chunk.
pub fn leak(chunk: &Chunk) -> Leak {
    [chunk.id, chunk.first, chunk.size, chunk.kind, chunk.label]
}

// ---- places

/// Places to step from: every address of a small block, else those at and beside where chunks begin, of many
/// chunks where some do; and some at and past the end.
pub fn places(table: &Table, random: &mut Random) -> Vec<u64> {
    let mut places = vec![0, table.size, table.size + 1, 1 << 63, u64::MAX];
    places.push(random.up_to_bits(64));
    if table.size <= SMALL {
        places.extend(1..table.size);
    } else {
        let mut firsts: Vec<u64> = table.chunks.iter().map(|chunk| chunk.first).collect();
        random.shuffle(&mut firsts);
        firsts.truncate(MANY);
        firsts.push(random.below(table.size));
        let beside = |first: u64| [first.saturating_sub(1), first, first + 1];
        places.extend(firsts.into_iter().flat_map(beside));
    }
    places
}
