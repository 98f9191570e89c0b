//! A request that is refused for want of a slot leaves the Rust's block as it was.

use lunkaseyo_oracle_blockbench::block::Block;
use lunkaseyo_oracle_blockbench::habits::{self, Habits};
use lunkaseyo_oracle_blockbench::random::Random;
use lunkaseyo_oracle_blockbench::rust::MemoryChunk;

/// All that a later call can depend on, in an order of its own.
fn state(block: &Block) -> impl PartialEq + std::fmt::Debug {
    let rust = block.rust();
    let links = |chunk: &MemoryChunk| (chunk.prev, chunk.next, chunk.name.clone());
    let mut chunks: Vec<_> = rust.chunks.iter().collect();
    chunks.sort_unstable_by_key(|(id, _)| **id);
    let chunks = chunks.into_iter().map(|(id, chunk)| {
        let place = (chunk.offset, chunk.size, chunk.allocation_type as u8);
        (*id, chunk.chunk_id, place, links(chunk))
    });
    let mut free: Vec<_> = rust.free_chunks.iter().copied().collect();
    free.sort_unstable();
    let head = (rust.size, rust.allocated, rust.chunk_id_counter);
    (head, chunks.collect::<Vec<_>>(), free)
}

#[test]
fn refusal_9_changes_nothing() {
    let mut random = Random::seeded(1);
    let mut refused = 0;
    for _ in 0..500 {
        let (size, slots) = (1 + random.up_to_bits(40), 1 + random.below(12));
        let mut block = Block::new(size, slots).expect("the size is one of a block");
        let mut habits = Habits::new(size, slots, &mut random);
        for _ in 0..100 {
            if habits.frees(Some(&block), &mut random) {
                // whether it is live does not matter here
                let _ = block.free(habits::id(Some(&block), &[1], &mut random));
                continue;
            }
            let before = state(&block);
            if block.allocate(habits.request(Some(&block), &mut random)) == Err(9) {
                assert_eq!(state(&block), before);
                refused += 1;
            }
            assert!(block.rust().chunks.len() as u64 <= slots);
        }
    }
    assert!(refused > 2_000, "refused only {refused} times");
}
