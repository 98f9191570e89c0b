//! The Rust's free-list block, with the slot that each of its chunks has in a table.

use std::backtrace::Backtrace;
use std::collections::{HashMap, HashSet};
use std::num::NonZeroU64;
use std::sync::Arc;

use crate::rust::{self, AllocationError, FreeListAllocator, MemoryChunk, Request, SubAllocator};
use crate::table::{Chunk, Table};

/// A block of the Rust. Slots follow the rules of tables: a new chunk takes the lowest empty slot,
/// and the slot of a chunk that was merged away is empty again.
pub struct Tracked {
    block: FreeListAllocator,
    slots: usize,
    slot_of: HashMap<u64, u64>,
}

/// What a request for memory came to.
#[derive(Clone, Copy, Debug, PartialEq, Eq)]
pub enum Placed {
    /// The range starts at this offset.
    At {
        /// The offset.
        offset: u64,
        /// The id of the chunk.
        id: u64,
    },
    /// The Rust found no room, or no id.
    OutOfMemory,
    /// The Rust, which has no slots, would split a chunk, and no slot is empty. The block is as it was.
    NoEmptySlot,
}

impl Tracked {
    /// A new block.
    pub fn new(size: u64, slots: usize) -> Self {
        Self {
            block: FreeListAllocator::new(size),
            slots,
            slot_of: HashMap::from([(1, 1)]),
        }
    }

    /// The block that a sound table describes.
    pub fn of(table: &Table) -> Self {
        let mut block = FreeListAllocator::new(table.size);
        block.allocated = table.allocated;
        block.chunk_id_counter = table.next_id;
        block.chunks = rust_chunks(&table.chunks);
        let free = table.chunks.iter().filter(|chunk| chunk.is_free());
        block.free_chunks = free.map(|chunk| rust_id(chunk.id)).collect();
        Self {
            block,
            slots: table.slots,
            slot_of: table.chunks.iter().map(|c| (c.id, c.slot)).collect(),
        }
    }

    /// The Rust's block alone.
    pub fn into_block(self) -> FreeListAllocator {
        self.block
    }

    /// What the Rust reports: the name, the first byte and the size of each live chunk, in any order.
    pub fn reported(&self) -> Vec<(String, u64, u64)> {
        rust::reported(&self.block)
    }

    /// Whether the Rust says that nothing is allocated.
    pub fn is_empty(&self) -> bool {
        self.block.is_empty()
    }

    /// What the block's table says.
    pub fn table(&self) -> Table {
        let chunks = self.block.chunks.values();
        let mut chunks: Vec<Chunk> = chunks.map(|chunk| self.chunk(chunk)).collect();
        chunks.sort_unstable_by_key(|chunk| chunk.first);
        Table {
            slots: self.slots,
            size: self.block.size,
            allocated: self.block.allocated,
            next_id: self.block.chunk_id_counter,
            chunks,
        }
    }

    /// Leaves out this many ids, as far as there are any, as if chunks had taken them and were gone.
    pub fn skip_ids(&mut self, count: u64) {
        self.block.chunk_id_counter = self.block.chunk_id_counter.saturating_add(count);
    }

    /// Whether each slot holds a chunk.
    pub fn is_full(&self) -> bool {
        self.slot_of.len() == self.slots
    }

    /// Whether a chunk that is not free has this id.
    pub fn is_live(&self, id: u64) -> bool {
        let chunk = NonZeroU64::new(id).and_then(|id| self.block.chunks.get(&id));
        chunk.map_or(false, |chunk| rust::kind_number(chunk.allocation_type) != 0)
    }

    /// Asks for memory.
    pub fn allocate(&mut self, request: Request) -> Placed {
        let before = self.is_full().then(|| self.table());
        match rust::allocate(&mut self.block, request) {
            Ok((offset, id)) => match before {
                Some(before) if !self.slot_of.contains_key(&id) => {
                    *self = Self::of(&before);
                    Placed::NoEmptySlot
                }
                _ => {
                    self.take_slot(id);
                    Placed::At { offset, id }
                }
            },
            Err(AllocationError::OutOfMemory) => Placed::OutOfMemory,
            Err(fault) => panic!("{request:?}: {fault}"),
        }
    }

    /// Gives the chunk with this id back, which is live.
    pub fn free(&mut self, id: u64) {
        rust::free(&mut self.block, id).expect("the id is live");
        let chunks = &self.block.chunks;
        self.slot_of
            .retain(|&id, _| chunks.contains_key(&rust_id(id)));
    }

    /// Labels the chunk with this id, which is live.
    pub fn rename(&mut self, id: u64, label: u64) {
        rust::rename(&mut self.block, id, label).expect("the id is live");
    }

    /// The lowest empty slot for a chunk that has none yet.
    fn take_slot(&mut self, id: u64) {
        if self.slot_of.contains_key(&id) {
            return;
        }
        let used: HashSet<u64> = self.slot_of.values().copied().collect();
        let lowest = (1..).find(|slot| !used.contains(slot));
        self.slot_of
            .insert(id, lowest.expect("there are fewer chunks than numbers"));
    }

    fn chunk(&self, chunk: &MemoryChunk) -> Chunk {
        let id = chunk.chunk_id.get();
        let label = |name: &String| name.parse().expect("names are labels");
        Chunk {
            slot: self.slot_of[&id],
            id,
            size: chunk.size,
            first: chunk.offset,
            kind: rust::kind_number(chunk.allocation_type),
            label: chunk.name.as_ref().map_or(0, label),
        }
    }
}

/// The Rust's chunks, each linked with its neighbours.
fn rust_chunks(chunks: &[Chunk]) -> HashMap<NonZeroU64, MemoryChunk> {
    let id = |place: usize| chunks.get(place).map(|chunk| rust_id(chunk.id));
    let linked = chunks.iter().enumerate().map(|(place, chunk)| MemoryChunk {
        chunk_id: rust_id(chunk.id),
        size: chunk.size,
        offset: chunk.first,
        allocation_type: rust::kind(chunk.kind),
        name: (!chunk.is_free()).then(|| chunk.label.to_string()),
        backtrace: Arc::new(Backtrace::disabled()),
        next: id(place + 1),
        prev: place.checked_sub(1).and_then(id),
    });
    linked.map(|chunk| (chunk.chunk_id, chunk)).collect()
}

fn rust_id(id: u64) -> NonZeroU64 {
    NonZeroU64::new(id).expect("ids are at least 1")
}
