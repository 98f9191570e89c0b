//! Random requests and ids for one block: what most of them are like, and every sort of exception.

use crate::block::{is_live, Block};
use crate::random::Random;
use crate::requests::{fitting_size, varied};
use crate::rust::{self, MemoryChunk, Request};

/// What most calls on a block are like.
pub struct Habits {
    /// Most requests are for one of these sizes, so that many chunks are equal.
    sizes: [u64; 2],
    /// The others are for up to this many bytes.
    reach: u64,
    /// One in so many requests is one of the others, on average.
    others: u64,
    /// Most alignments have fewer bits than this.
    bits: u64,
    /// The granularity of most requests.
    page: u64,
    /// How many of a hundred calls give memory back. It changes now and then.
    frees: u64,
}

impl Habits {
    /// Habits for a block of this size and this many slots.
    pub fn new(size: u64, slots: u64, random: &mut Random) -> Self {
        // about so many chunks fill the block: more than there are slots, now and then fewer
        let any = 1 + random.below(2 * slots);
        let chunks = random.pick(&[4 * slots, 2 * slots, any]);
        let reach = 1 + (size / chunks).saturating_mul(2);
        let near = u64::from(64 - reach.leading_zeros());
        let bits = random.pick(&[1, 1 + near / 2, near]);
        Self {
            sizes: [(); 2].map(|()| 1 + random.below(reach)),
            reach,
            others: random.pick(&[1, 2, 20]),
            bits,
            page: 1 << random.below(bits),
            frees: 5,
        }
    }

    /// Whether the next call gives memory back. Now and then the habit changes.
    pub fn frees(&mut self, block: Option<&Block>, random: &mut Random) -> bool {
        if random.once_in(2 * block.map_or(1, Block::slots)) {
            self.frees = random.pick(&[5, 15, 30, 40, 60]);
        }
        let left = block.map_or(0, |block| block.rust().size - block.allocated());
        let frees = match block {
            Some(block) if block.is_empty() => 5,
            // most requests would ask for more than is free
            Some(_) if left < self.reach / 2 => 50,
            _ => self.frees,
        };
        random.below(100) < frees
    }

    /// The next request.
    pub fn request(&self, block: Option<&Block>, random: &mut Random) -> Request {
        let usual = self.usual(random);
        varied(usual, |random| fitting(block, usual, random), random)
    }

    fn usual(&self, random: &mut Random) -> Request {
        let is_other = random.once_in(self.others);
        let (size, other) = (random.pick(&self.sizes), 1 + random.below(self.reach));
        let (near, power) = (1 << random.below(self.bits), 1 << random.below(64));
        let (alignment, granularity) = match random.below(16) {
            0 => (power, self.page),
            1 => (near, power),
            _ => (near, self.page),
        };
        Request {
            size: if is_other { other } else { size },
            alignment,
            kind: 1 + random.below(2),
            granularity,
            label: random.up_to_bits(64),
        }
    }
}

/// The id for the next call that gives memory back: of a live chunk, most often.
pub fn id(block: Option<&Block>, given_back: &[u64], random: &mut Random) -> u64 {
    let live = block.and_then(|block| any_chunk(block, is_live, random));
    match live {
        Some(chunk) if !random.once_in(12) => chunk.chunk_id.get(),
        _ => other_id(block, given_back, random),
    }
}

/// An id that is not live, most often: a free chunk's, given back, not handed out yet, one that
/// differs from a chunk's in a bit, 0, the last number, or any.
fn other_id(block: Option<&Block>, given_back: &[u64], random: &mut Random) -> u64 {
    let mut ids = vec![0, u64::MAX, random.up_to_bits(64)];
    ids.extend([(); 3].map(|()| random.pick(given_back)));
    if let Some(block) = block {
        let free = any_chunk(block, |chunk| !is_live(chunk), random);
        ids.extend(free.map_or([0; 2], |chunk| [chunk.chunk_id.get(); 2]));
        let near = any_chunk(block, |_| true, random).map_or(0, |chunk| chunk.chunk_id.get());
        ids.extend([block.rust().chunk_id_counter, near ^ 1 << random.below(64)]);
    }
    random.pick(&ids)
}

/// A request that some free chunk is just large enough for, now and then but for one byte.
fn fitting(block: Option<&Block>, usual: Request, random: &mut Random) -> Request {
    let free = block.and_then(|block| any_chunk(block, |chunk| !is_live(chunk), random));
    let Some(chunk) = free else {
        return usual;
    };
    let alignment = random.pick(&[1, usual.alignment]);
    let padding = rust::align_up(chunk.offset, alignment) - chunk.offset;
    Request {
        size: fitting_size(chunk.size, padding, random),
        alignment,
        ..usual
    }
}

/// Any of the chunks that suit. The order of the hash map has no say in it, as it differs from run to run.
fn any_chunk<'a>(
    block: &'a Block,
    suits: impl Fn(&MemoryChunk) -> bool,
    random: &mut Random,
) -> Option<&'a MemoryChunk> {
    let factor = random.word() | 1;
    let chunks = block.rust().chunks.values().filter(|chunk| suits(chunk));
    chunks.min_by_key(|chunk| chunk.chunk_id.get().wrapping_mul(factor))
}
