//! Random lines of calls, of every sort. They know the block that they are for.

use std::io::Write;

use crate::bench::Bench;
use crate::block::{LARGEST, MOST_SLOTS};
use crate::habits::{self, Habits};
use crate::random::Random;

/// How many ids are remembered that were given back.
const REMEMBERED: usize = 16;

/// Writes lines, and follows what they do.
pub struct Script {
    random: Random,
    bench: Bench,
    habits: Habits,
    /// How many lines are left before the next block.
    left: u64,
    given_back: [u64; REMEMBERED],
}

impl Script {
    /// Lines of its own for each seed.
    pub fn seeded(seed: u64) -> Self {
        let mut random = Random::seeded(seed);
        Self {
            bench: Bench::default(),
            habits: Habits::new(1 << 20, 16, &mut random),
            // the first calls have no block
            left: random.below(4),
            given_back: [1; REMEMBERED],
            random,
        }
    }

    /// The next line, without a line feed.
    pub fn next_line(&mut self) -> Vec<u8> {
        if self.left == 0 {
            return self.new_block_line();
        }
        self.left -= 1;
        let (block, random) = (self.bench.block(), &mut self.random);
        if self.habits.frees(block, random) {
            let id = habits::id(block, &self.given_back, random);
            self.given_back[random.below(REMEMBERED as u64) as usize] = id;
            self.text(b'f', &[id])
        } else {
            let request = self.habits.request(block, random);
            self.text(b'a', &request.words())
        }
    }

    /// A line for another block, now and then one that is not made.
    pub fn new_block_line(&mut self) -> Vec<u8> {
        let random = &mut self.random;
        let (size, slots) = (any_size(random), any_slots(random));
        let (refused, unreadable) = (refused_size(random), unreadable_slots(random));
        let turn = random.below(16);
        let (size, slots) = match turn {
            0 => (random.pick(&[size, refused]), unreadable),
            1 => (refused, slots),
            _ => (size, slots),
        };
        if turn > 1 {
            self.left = run_length(slots, random);
            self.habits = Habits::new(size, slots, random);
        } else {
            self.left = random.below(8);
        }
        self.text(b'n', &[size, slots])
    }

    /// Learns what was written, one line or several.
    pub fn follow(&mut self, lines: &[u8]) {
        for line in lines.split(|&byte| byte == b'\n') {
            self.bench.answer(line);
        }
    }

    fn text(&mut self, letter: u8, numbers: &[u64]) -> Vec<u8> {
        let has_zeros = self.random.once_in(50);
        let mut line = vec![letter];
        for number in numbers {
            line.push(b' ');
            if has_zeros {
                let zeros = self.random.pick(&[0, 1, 2, 25]);
                line.extend(std::iter::repeat(b'0').take(zeros));
            }
            write!(line, "{number}").expect("memory takes all that is written");
        }
        line
    }
}

/// Any size of a block, 1 byte to 2^40.
fn any_size(random: &mut Random) -> u64 {
    match random.below(8) {
        0 => 1 + random.below(64),
        1 => LARGEST - random.below(2),
        2..=3 => 1 << random.below(41),
        _ => 1 + random.up_to_bits(40),
    }
}

/// A size that no block may have. Some are one but for a bit that is too high.
fn refused_size(random: &mut Random) -> u64 {
    let near = any_size(random) | 1 << (41 + random.below(23));
    let above = LARGEST + 1 + random.up_to_bits(63);
    random.pick(&[0, 0, LARGEST + 1, near, above, u64::MAX])
}

/// Any number of slots, most often 4 to 64.
fn any_slots(random: &mut Random) -> u64 {
    match random.below(400) {
        0 => MOST_SLOTS,
        1 => 1 + random.below(MOST_SLOTS),
        2..=39 => 1 + random.below(3),
        40..=199 => 4 + random.below(61),
        _ => 4 + random.below(13),
    }
}

/// A number that is none of slots. Some are one but for a bit that is too high.
fn unreadable_slots(random: &mut Random) -> u64 {
    let near = any_slots(random) | 1 << (10 + random.below(54));
    let above = MOST_SLOTS + 1 + random.up_to_bits(63);
    random.pick(&[0, 0, MOST_SLOTS + 1, near, near, above, u64::MAX])
}

/// How many calls are made on a block: enough to fill it several times, now and then very many.
fn run_length(slots: u64, random: &mut Random) -> u64 {
    let usual = slots * (2 + random.below(12));
    match random.below(20_000) {
        // enough for ids of more than 16 bits
        0 => 400_000,
        1..=50 if slots <= 64 => 10_000 + random.below(20_000),
        _ => usual,
    }
}
