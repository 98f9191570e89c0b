//! Tables to lend: sound ones, and how each is damaged.

use lunkaseyo::{Block, Kind, Request};

/// A table of a new block.
pub fn fresh(size: u64, slots: usize) -> Vec<u64> {
    let mut words = vec![0; Block::words(slots)];
    Block::new(&mut words, size).expect("a block and a table");
    words
}

/// A new block whose next id is the last number, so that none is left.
pub fn without_ids(slots: usize) -> Vec<u64> {
    let mut words = fresh(4096, slots);
    words[2] = u64::MAX;
    words
}

/// Every slot is used and every byte allocated.
pub fn full(slots: usize) -> Vec<u64> {
    let chunk = request(64, 0);
    let mut words = fresh(slots as u64 * chunk.size, slots);
    let mut block = Block::over(&mut words);
    for _ in 0..slots {
        block.allocate(chunk).expect("a slot for each chunk");
    }
    words
}

/// A block after requests and frees, some of which it refused.
pub fn after_many_calls(slots: usize) -> Vec<u64> {
    let mut words = fresh(1 << 16, slots);
    let mut block = Block::over(&mut words);
    let mut numbers = Numbers(slots as u64);
    let mut live = Vec::new();
    for _ in 0..4 * slots {
        if !live.is_empty() && numbers.below(3) == 0 {
            let id = live.swap_remove(numbers.below(live.len() as u64) as usize);
            block.free(id).expect("it is live");
        } else if let Ok(place) = block.allocate(request(1 + numbers.below(500), numbers.below(8)))
        {
            live.push(place.id);
        }
    }
    words
}

/// A request of either kind with an alignment and a granularity of some sort.
fn request(size: u64, sort: u64) -> Request {
    Request {
        size,
        alignment: 1 << sort,
        kind: [Kind::Linear, Kind::NonLinear][(sort % 2) as usize],
        granularity: 1 << (7 - sort),
        label: sort,
    }
}

/// The ids of a table's chunks, live or free.
pub fn ids(words: &[u64]) -> Vec<u64> {
    let slots = words[4..].chunks(7);
    slots.map(|slot| slot[0]).filter(|&id| id != 0).collect()
}

/// The table with one word set to another value, for each word and several values: a slot number that is
/// none among them, and one whose place in bytes would come round to 0.
pub fn damaged(words: &[u64]) -> impl Iterator<Item = Vec<u64>> + '_ {
    let behind = ((words.len() - 4) / 7) as u64 + 1;
    (0..words.len()).flat_map(move |place| {
        let old = words[place];
        let values = [
            0,
            1,
            behind,
            513,
            1 << 61,
            !old,
            old.wrapping_sub(1),
            u64::MAX,
        ];
        values.into_iter().map(move |value| {
            let mut damaged = words.to_vec();
            damaged[place] = value;
            damaged
        })
    })
}

/// A row of numbers that look like chance and are the same in every run.
struct Numbers(u64);

impl Numbers {
    fn below(&mut self, limit: u64) -> u64 {
        // Knuth's constants for MMIX; the high bits are the better ones
        self.0 = self
            .0
            .wrapping_mul(6364136223846793005)
            .wrapping_add(1442695040888963407);
        (self.0 >> 33) % limit
    }
}
