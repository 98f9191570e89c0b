//! What matters of placements comes up in a file of calls, each often enough to be compared.

use lunkaseyo_oracle_blockbench::bench::{Answer, Bench};
use lunkaseyo_oracle_blockbench::block::{is_live, Block};
use lunkaseyo_oracle_blockbench::files::write_calls;

/// A free chunk before a request: first byte and size.
type Free = (u64, u64);

/// An accepted request, and what it chose from.
struct Placement {
    offset: u64,
    /// The id is one that the chunk had before.
    is_whole: bool,
    /// Each slot had a chunk.
    was_full: bool,
    chosen: Free,
    free: Vec<Free>,
}

/// A sort of placements: its name, and the test that picks them.
type Sort = (&'static str, fn(&Placement) -> bool);

/// What there is to choose from in a block: its free chunks, the next id, and whether each slot has a chunk.
fn choice(block: &Block) -> (Vec<Free>, u64, bool) {
    let chunks = &block.rust().chunks;
    let free = chunks.values().filter(|chunk| !is_live(chunk));
    let free = free.map(|chunk| (chunk.offset, chunk.size)).collect();
    let is_full = chunks.len() as u64 == block.slots();
    (free, block.rust().chunk_id_counter, is_full)
}

/// The accepted requests of a file.
fn placements() -> Vec<Placement> {
    let mut lines = Vec::new();
    write_calls(1, 100_000, &mut lines).expect("memory takes all that is written");
    let mut bench = Bench::default();
    let mut placements = Vec::new();
    for line in lines.split(|&byte| byte == b'\n') {
        let before = bench.block().map(choice);
        let answer = bench.answer(line);
        // the id is 0 where no memory was handed out
        let (
            Some((free, next_id, was_full)),
            Answer::Numbers {
                offset,
                id: id @ 1..,
                ..
            },
        ) = (before, answer)
        else {
            continue;
        };
        let holds = |chunk: &&Free| (chunk.0..chunk.0 + chunk.1).contains(&offset);
        let chosen = *free
            .iter()
            .find(holds)
            .expect("memory comes from a free chunk");
        placements.push(Placement {
            offset,
            is_whole: id != next_id,
            was_full,
            chosen,
            free,
        });
    }
    placements
}

#[test]
fn placements_are_of_all_sorts() {
    let sorts: [Sort; 6] = [
        ("a split", |p| !p.is_whole),
        ("a whole chunk", |p| p.is_whole),
        ("a whole chunk where no slot is empty", |p| {
            p.is_whole && p.was_full
        }),
        ("padding", |p| p.offset > p.chosen.0),
        ("an equal chunk above", |p| {
            p.free.iter().any(|c| c.1 == p.chosen.1 && c.0 > p.chosen.0)
        }),
        ("a smaller chunk that does not do", |p| {
            p.free.iter().any(|c| c.1 < p.chosen.1)
        }),
    ];
    let placements = placements();
    for (name, has) in sorts {
        let count = placements.iter().filter(|placement| has(placement)).count();
        assert!(count > 500, "{name}: {count} of {}", placements.len());
    }
}
