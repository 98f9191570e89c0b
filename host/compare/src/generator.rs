//! Sound tables: those that random calls of the Rust lead to, the same ones with other slots, ids and
//! labels, and any others, which no calls need lead to.

use std::collections::HashSet;

use crate::random::Random;
use crate::rust::Request;
use crate::table::{Chunk, Table, LARGEST_BLOCK, MOST_SLOTS};
use crate::tracked::{Placed, Tracked};

/// Random calls on one block.
pub struct Run {
    block: Tracked,
    live: Vec<u64>,
    slots: usize,
    /// Requests are up to this large, most of them.
    reach: u64,
    /// Alignments and granularities have fewer bits than this.
    bits: u64,
    /// How many of a hundred calls give memory back.
    frees: u64,
    /// Up to this many ids are left out before each request.
    skipped: u64,
}

impl Run {
    /// A new block of any size, with any number of slots, most often 1 to 20.
    pub fn start(random: &mut Random) -> Self {
        let slots = any_slots(random);
        let size = any_size(random);
        // about so many chunks fill the block: more than there are slots, or fewer
        let many = 2 * slots as u64;
        let any = 1 + random.below(many);
        let chunks = random.pick(&[many, many, any]);
        Self {
            block: Tracked::new(size, slots),
            live: Vec::new(),
            slots,
            reach: 1 + 2 * size / chunks,
            bits: random.pick(&[1, 8, 24, 64]),
            frees: random.pick(&[5, 20, 50]),
            skipped: random.pick(&[0, (1 << 20) / (4 * slots as u64), 1 << 57]),
        }
    }

    /// The table after some more calls: enough of them, where there are many slots, to see another.
    pub fn next_table(&mut self, random: &mut Random) -> Table {
        for _ in 0..1 + self.slots / 4 {
            self.call(random);
        }
        self.block.table()
    }

    fn call(&mut self, random: &mut Random) {
        if self.live.is_empty() || random.below(100) >= self.frees {
            self.allocate(random);
        } else if random.once_in(8) {
            let label = random.up_to_bits(64);
            self.block.rename(random.pick(&self.live), label);
        } else {
            let place = random.below(self.live.len() as u64) as usize;
            self.block.free(self.live.swap_remove(place));
        }
    }

    fn allocate(&mut self, random: &mut Random) {
        let skipped = random.below(self.skipped + 1);
        self.block.skip_ids(skipped);
        let request = if self.block.is_full() {
            self.exact_fit(random)
        } else {
            Some(self.any_request(random))
        };
        let placed = request.map(|request| self.block.allocate(request));
        if let Some(Placed::At { id, .. }) = placed {
            self.live.push(id);
        }
    }

    fn any_request(&self, random: &mut Random) -> Request {
        let usual = 1 + random.below(self.reach);
        let any = 1 + random.up_to_bits(41);
        Request {
            size: if random.once_in(32) { any } else { usual },
            alignment: 1 << random.below(self.bits),
            kind: 1 + random.below(2),
            granularity: 1 << random.below(self.bits),
            label: random.up_to_bits(64),
        }
    }

    /// A request that takes a whole free chunk, if there is one.
    fn exact_fit(&self, random: &mut Random) -> Option<Request> {
        let table = self.block.table();
        let free = table.chunks.iter().filter(|chunk| chunk.is_free());
        let sizes: Vec<u64> = free.map(|chunk| chunk.size).collect();
        (!sizes.is_empty()).then(|| Request {
            size: random.pick(&sizes),
            alignment: 1,
            granularity: 1,
            ..self.any_request(random)
        })
    }
}

/// Any number of slots, most often 1 to 20.
pub fn any_slots(random: &mut Random) -> usize {
    match random.below(1000) {
        0..=4 => MOST_SLOTS,
        5..=9 => 1 + random.below(MOST_SLOTS as u64) as usize,
        10..=39 => 64,
        _ => 1 + random.below(20) as usize,
    }
}

/// Any size of a block, 1 byte to 2^40.
pub fn any_size(random: &mut Random) -> u64 {
    let small = 1 + random.below(64);
    let any = 1 + random.up_to_bits(40);
    let power = 1 << random.below(41);
    random.pick(&[small, any, any, power, LARGEST_BLOCK])
}

/// Chunks of any sizes and kinds, half of them free or fewer, in any slots, under any ids and labels.
pub fn any_table(random: &mut Random) -> Table {
    let slots = any_slots(random);
    // where it is small many chunks are equal
    let reach = random.pick(&[1, 2, 4, 64, 1 << 20, LARGEST_BLOCK / slots as u64]);
    let mut chunks: Vec<Chunk> = Vec::new();
    let mut end = 0;
    for _ in 0..1 + random.below(slots as u64) {
        let (size, live) = (1 + random.below(reach), 1 + random.below(2));
        let is_after_free = chunks.last().map_or(false, Chunk::is_free);
        chunks.push(Chunk {
            slot: 0,
            id: 0,
            size,
            first: end,
            kind: if is_after_free {
                live
            } else {
                random.pick(&[0, 0, live])
            },
            label: 0,
        });
        end += size;
    }
    let live = chunks.iter().filter(|chunk| !chunk.is_free());
    let table = Table {
        slots,
        size: end,
        allocated: live.map(|chunk| chunk.size).sum(),
        next_id: 0,
        chunks,
    };
    rearranged(table, random)
}

/// The same chunks in any slots, under any ids and labels.
pub fn rearranged(mut table: Table, random: &mut Random) -> Table {
    shuffle_slots(&mut table, random);
    let ids = any_ids(table.chunks.len(), random);
    let largest = ids.iter().max().expect("a sound table has a chunk");
    let (few, many) = (random.up_to_bits(20), random.up_to_bits(64));
    let unused = random.pick(&[0, few, many]);
    table.next_id = (largest + 1).saturating_add(unused);
    for (chunk, id) in table.chunks.iter_mut().zip(ids) {
        let label = random.up_to_bits(64);
        chunk.id = id;
        if !chunk.is_free() {
            chunk.label = random.pick(&[0, label]);
        }
    }
    table
}

/// Puts the chunks in any slots, all equally likely.
pub fn shuffle_slots(table: &mut Table, random: &mut Random) {
    let mut slots: Vec<u64> = (1..=table.slots as u64).collect();
    random.shuffle(&mut slots);
    for (chunk, slot) in table.chunks.iter_mut().zip(slots) {
        chunk.slot = slot;
    }
}

/// Distinct ids from 1 to 2^64 - 2: low, of up to 20 bits, of any size, or equal in their low bits.
fn any_ids(count: usize, random: &mut Random) -> Vec<u64> {
    match random.below(4) {
        0 => distinct(count, || 1 + random.below(2 * count as u64)),
        1 => distinct(count, || 1 + random.below((1 << 20) - 1)),
        2 => distinct(count, || 1 + random.below(u64::MAX - 1)),
        _ => {
            let low = random.pick(&[4, 8, 9, 10, 16, 32, 54]);
            let same = 1 + random.below((1 << low) - 2);
            distinct(count, || same + (random.below(1 << 10) << low))
        }
    }
}

/// The first `count` numbers of a series that differ.
fn distinct(count: usize, mut next: impl FnMut() -> u64) -> Vec<u64> {
    let mut seen = HashSet::new();
    let mut numbers = Vec::with_capacity(count);
    while numbers.len() < count {
        let number = next();
        if seen.insert(number) {
            numbers.push(number);
        }
    }
    numbers
}

/// Hands on sound tables of three kinds in turn: those that runs of calls lead to, the same in other slots, and any.
pub fn each_table(
    random: &mut Random,
    [runs, tables_of_a_run]: [usize; 2],
    mut compare: impl FnMut(&Table, &mut Random),
) {
    for _ in 0..runs {
        let mut run = Run::start(random);
        for _ in 0..tables_of_a_run {
            let called = run.next_table(random);
            let other = rearranged(called.clone(), random);
            for table in [called, other, any_table(random)] {
                compare(&table, random);
            }
        }
    }
}
