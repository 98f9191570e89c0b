//! Random calls for one block, of every sort.

use crate::calls::Call;
use crate::random::Random;
use crate::requests::{fitting_size, varied};
use crate::rust::{self, Request};
use crate::table::{Chunk, Table};

/// How many ids are remembered that were given back.
const REMEMBERED: usize = 64;

/// What most calls on a block are like, and the ids that were given back.
pub struct Caller {
    /// Requests are for up to this many units.
    units: u64,
    /// The bytes of a unit: where it is large, many chunks are equal.
    unit: u64,
    /// Alignments and granularities have fewer bits than this.
    bits: u64,
    /// The granularity of most requests.
    page: u64,
    /// How many of a hundred calls give memory back. It changes now and then.
    frees: u64,
    given_back: Vec<u64>,
}

impl Caller {
    /// A caller for a block of this size and this many slots.
    pub fn new(size: u64, slots: usize, random: &mut Random) -> Self {
        // about so many chunks fill the block: more than there are slots, or fewer
        let many = 2 * slots as u64;
        let any = 1 + random.below(many);
        let reach = 1 + 2 * size / random.pick(&[many, many, any]);
        let units = random.pick(&[reach, reach, 4, 1]).min(reach);
        let bits = random.pick(&[1, 8, 24, 64]);
        Self {
            units,
            unit: reach / units,
            bits,
            page: 1 << random.below(bits),
            frees: 5,
            given_back: Vec::new(),
        }
    }

    /// The next call on a block with this table.
    pub fn call(&mut self, table: &Table, random: &mut Random) -> Call {
        if random.once_in(2 * table.slots as u64) {
            self.frees = random.pick(&[5, 50, 50, 80]);
        }
        // where most requests would ask for more than is free
        let is_scarce = table.size - table.allocated < self.unit * (self.units + 1) / 2;
        let frees = if is_scarce { 50 } else { self.frees };
        let live: Vec<u64> = ids(table, |chunk| !chunk.is_free());
        let id = if live.is_empty() || random.once_in(12) {
            self.other_id(table, random)
        } else {
            random.pick(&live)
        };
        match random.below(100) {
            0..=5 => Call::Rename(id, random.pick(&[0, u64::MAX, id, table.next_id])),
            6..=7 => Call::Rename(id, random.up_to_bits(64)),
            turn if turn >= 100 - frees => {
                self.remember(id, random);
                Call::Free(id)
            }
            _ => Call::Allocate(self.request(table, random)),
        }
    }

    /// An id that is not live, most often: given back, a free chunk's, one that differs from a chunk's
    /// in a bit, 0, not handed out yet, or any.
    fn other_id(&self, table: &Table, random: &mut Random) -> u64 {
        let near = random.pick(&ids(table, |_| true)) ^ 1 << random.below(64);
        let any = random.up_to_bits(64);
        let mut others = ids(table, Chunk::is_free);
        others.extend([near, near, 0, table.next_id, any]);
        let mut choices = vec![random.pick(&others)];
        if !self.given_back.is_empty() {
            choices.push(random.pick(&self.given_back));
        }
        random.pick(&choices)
    }

    fn remember(&mut self, id: u64, random: &mut Random) {
        if self.given_back.len() == REMEMBERED {
            let place = random.below(REMEMBERED as u64) as usize;
            self.given_back.swap_remove(place);
        }
        self.given_back.push(id);
    }

    /// The next request on a block with this table.
    pub fn request(&self, table: &Table, random: &mut Random) -> Request {
        let usual = self.usual(random);
        varied(usual, |random| fitting(table, usual, random), random)
    }

    fn usual(&self, random: &mut Random) -> Request {
        let any_page = 1 << random.below(self.bits);
        Request {
            size: self.unit * (1 + random.below(self.units)),
            alignment: 1 << random.below(self.bits),
            kind: 1 + random.below(2),
            granularity: random.pick(&[self.page, self.page, any_page]),
            label: random.up_to_bits(64),
        }
    }
}

/// A request that some free chunk is just large enough for, now and then but for one byte.
pub fn fitting(table: &Table, usual: Request, random: &mut Random) -> Request {
    let free: Vec<&Chunk> = table.chunks.iter().filter(|c| c.is_free()).collect();
    if free.is_empty() {
        return usual;
    }
    let chunk = random.pick(&free);
    // one that the first byte keeps to: 0 keeps to all
    let kept = 1 << random.below(u64::from(chunk.first.trailing_zeros().min(63)) + 1);
    let alignment = random.pick(&[usual.alignment, kept, kept]);
    let padding = rust::align_up(chunk.first, alignment) - chunk.first;
    Request {
        size: fitting_size(chunk.size, padding, random),
        alignment,
        ..usual
    }
}

fn ids(table: &Table, suits: impl Fn(&Chunk) -> bool) -> Vec<u64> {
    let chunks = table.chunks.iter().filter(|chunk| suits(chunk));
    chunks.map(|chunk| chunk.id).collect()
}
