//! The Rust's block with a limit to its chunks, and the refusals that the Rust does not know.

use std::num::NonZeroU64;

use crate::requests::fault;
use crate::rust::{
    self, AllocationError, AllocationType, FreeListAllocator, MemoryChunk, Request, SubAllocator,
};

/// The most bytes that a block may have.
pub const LARGEST: u64 = 1 << 40;

/// The most slots that a block may have.
pub const MOST_SLOTS: u64 = 512;

/// A block of the Rust with as many chunks as it has slots, or fewer.
pub struct Block {
    rust: FreeListAllocator,
    slots: u64,
}

impl Block {
    /// A new block, or the refusal of its size.
    pub fn new(size: u64, slots: u64) -> Result<Self, u64> {
        if !(1..=LARGEST).contains(&size) {
            return Err(13);
        }
        let rust = FreeListAllocator::new(size);
        Ok(Self { rust, slots })
    }

    /// The Rust's block.
    pub fn rust(&self) -> &FreeListAllocator {
        &self.rust
    }

    /// How many chunks it has room for.
    pub fn slots(&self) -> u64 {
        self.slots
    }

    /// The bytes that are handed out, padding included.
    pub fn allocated(&self) -> u64 {
        self.rust.allocated()
    }

    /// Whether nothing is handed out.
    pub fn is_empty(&self) -> bool {
        self.rust.is_empty()
    }

    /// The offset and the id for a request, or its refusal.
    pub fn allocate(&mut self, request: Request) -> Result<(u64, u64), u64> {
        if let Some(fault) = fault(request) {
            return Err(fault);
        }
        match rust::allocate(&mut self.rust, request) {
            // only a split makes a chunk
            Ok((_, id)) if self.rust.chunks.len() as u64 > self.slots => {
                self.join(id);
                Err(9)
            }
            Ok(place) => Ok(place),
            // the other reason for it is that the ids are used up, and no file of lines can be that long
            Err(AllocationError::OutOfMemory) => Err(7),
            Err(fault) => panic!("{request:?}: {fault}"),
        }
    }

    /// Gives an id back, or refuses to.
    pub fn free(&mut self, id: u64) -> Result<(), u64> {
        let chunk = NonZeroU64::new(id).and_then(|id| self.rust.chunks.get(&id));
        if !chunk.map_or(false, is_live) {
            return Err(10);
        }
        rust::free(&mut self.rust, id).expect("the id is live");
        Ok(())
    }

    /// Undoes the split that made the chunk with this id: all that it wrote is set back.
    fn join(&mut self, id: u64) {
        let chunks = &mut self.rust.chunks;
        let id = NonZeroU64::new(id).expect("ids are at least 1");
        let piece = chunks.remove(&id).expect("the chunk was just made");
        let whole = piece.next.expect("the rest of the chunk stands after it");
        if let Some(before) = piece.prev {
            chunks.get_mut(&before).expect("a neighbour").next = Some(whole);
        }
        let rest = chunks.get_mut(&whole).expect("a neighbour");
        rest.prev = piece.prev;
        rest.offset -= piece.size;
        rest.size += piece.size;
        self.rust.allocated -= piece.size;
        self.rust.chunk_id_counter -= 1;
    }
}

/// Whether a chunk is handed out.
pub fn is_live(chunk: &MemoryChunk) -> bool {
    chunk.allocation_type != AllocationType::Free
}
