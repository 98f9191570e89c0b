//! The Rust to compare with: the oracle's items, under one roof, and calls of them that take
//! numbers for names and need no backtrace.

use std::backtrace::Backtrace;
use std::num::NonZeroU64;
use std::sync::Arc;

pub use gpu_allocator::allocator::free_list_allocator::{
    align_down, align_up, has_granularity_conflict, is_on_same_page, MemoryChunk,
};
pub use gpu_allocator::allocator::{
    fmt_bytes, AllocationType, DedicatedBlockAllocator, FreeListAllocator, SubAllocator,
};
pub use gpu_allocator::{AllocationError, AllocationReport, AllocationSizes, Result};

/// The kind that a number stands for: 0 free, 1 linear, 2 non-linear.
pub fn kind(number: u64) -> AllocationType {
    match number {
        0 => AllocationType::Free,
        1 => AllocationType::Linear,
        2 => AllocationType::NonLinear,
        _ => panic!("{number} is no kind"),
    }
}

/// The number that stands for a kind.
pub fn kind_number(kind: AllocationType) -> u64 {
    match kind {
        AllocationType::Free => 0,
        AllocationType::Linear => 1,
        AllocationType::NonLinear => 2,
    }
}

/// What a block is asked for.
#[derive(Clone, Copy, Debug)]
pub struct Request {
    /// Bytes.
    pub size: u64,
    /// What the offset is to be a multiple of.
    pub alignment: u64,
    /// 1 linear, 2 non-linear.
    pub kind: u64,
    /// The size of a page, which kinds may not share.
    pub granularity: u64,
    /// A number in place of a name.
    pub label: u64,
}

impl Request {
    /// Its numbers, in the order in which they cross the boundary.
    pub fn words(self) -> [u64; 5] {
        [
            self.size,
            self.alignment,
            self.kind,
            self.granularity,
            self.label,
        ]
    }
}

/// The offset and the id that a block gives to a request.
pub fn allocate(block: &mut dyn SubAllocator, request: Request) -> Result<(u64, u64)> {
    let placed = block.allocate(
        request.size,
        request.alignment,
        kind(request.kind),
        request.granularity,
        &request.label.to_string(),
        Arc::new(Backtrace::disabled()),
    );
    placed.map(|(offset, id)| (offset, id.get()))
}

/// Gives an id back to its block.
pub fn free(block: &mut dyn SubAllocator, id: u64) -> Result<()> {
    block.free(NonZeroU64::new(id))
}

/// Gives the live chunk with this id another label.
pub fn rename(block: &mut dyn SubAllocator, id: u64, label: u64) -> Result<()> {
    block.rename_allocation(NonZeroU64::new(id), &label.to_string())
}

/// What a block reports of each allocation, in the order that it is reported in: name, first byte, size.
pub fn reported(block: &dyn SubAllocator) -> Vec<(String, u64, u64)> {
    let entries = block.report_allocations().into_iter();
    entries
        .map(|entry| (entry.name, entry.offset, entry.size))
        .collect()
}

/// The four words of block sizes, in the order in which they cross the boundary.
pub fn words(sizes: AllocationSizes) -> [u64; 4] {
    [
        sizes.min_device_memblock_size,
        sizes.max_device_memblock_size,
        sizes.min_host_memblock_size,
        sizes.max_host_memblock_size,
    ]
}

/// Block sizes with these four words, whether or not the rules can produce them.
pub fn sizes([min_device, max_device, min_host, max_host]: [u64; 4]) -> AllocationSizes {
    AllocationSizes {
        min_device_memblock_size: min_device,
        max_device_memblock_size: max_device,
        min_host_memblock_size: min_host,
        max_host_memblock_size: max_host,
    }
}
