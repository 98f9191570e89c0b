//! What any words say as a chunk table, by the rules as they are worded.
//!
//! The rules are not looked at along the walk: the used slots are put in the order of their first
//! bytes, and the links are compared with that order. Where all rules hold the two orders are one,
//! because sizes are at least 1. Sums are taken in numbers that hold them.

use std::collections::HashSet;
use std::iter::once;

use crate::table::{head, slot, slot_count, slot_words, Chunk, Table, LARGEST_BLOCK, SLOT};

/// What words say.
#[derive(Clone, Debug, PartialEq, Eq)]
pub enum Reading {
    /// Their number is not that of a table.
    NotATable,
    /// They are a table that breaks these rules.
    Unsound(Vec<Rule>),
    /// They are a sound table.
    Sound(Table),
}

/// A rule that a sound table keeps.
#[derive(Clone, Copy, Debug, PartialEq, Eq, PartialOrd, Ord)]
pub enum Rule {
    /// Block size 1 to 2^40.
    BlockSize,
    /// Next id at least 2.
    NextId,
    /// Ids distinct.
    IdsDistinct,
    /// Ids at least 1.
    IdsFromOne,
    /// Ids below next id.
    IdsBelowNext,
    /// Sizes at least 1.
    Sizes,
    /// Kinds 0 to 2.
    Kinds,
    /// Free chunks labelled 0.
    FreeLabels,
    /// The walk along "next" visits every used slot once.
    Walk,
    /// "Previous" agrees.
    Previous,
    /// Each chunk begins where the one before ends.
    Begins,
    /// The first begins at 0.
    FirstByte,
    /// The last ends at the block size.
    LastEnd,
    /// No two neighbours free.
    FreeNeighbours,
    /// Allocated equals the sum of live sizes.
    Allocated,
}

impl Rule {
    /// Every rule.
    pub const ALL: [Rule; 15] = [
        Rule::BlockSize,
        Rule::NextId,
        Rule::IdsDistinct,
        Rule::IdsFromOne,
        Rule::IdsBelowNext,
        Rule::Sizes,
        Rule::Kinds,
        Rule::FreeLabels,
        Rule::Walk,
        Rule::Previous,
        Rule::Begins,
        Rule::FirstByte,
        Rule::LastEnd,
        Rule::FreeNeighbours,
        Rule::Allocated,
    ];
}

/// Reads any words.
pub fn read(words: &[u64]) -> Reading {
    let Some(slots) = slot_count(words.len()) else {
        return Reading::NotATable;
    };
    let found = Found::by_first_byte(words, slots);
    let broken: Vec<Rule> = Rule::ALL
        .into_iter()
        .filter(|&rule| !found.keeps(rule))
        .collect();
    if broken.is_empty() {
        Reading::Sound(found.table)
    } else {
        Reading::Unsound(broken)
    }
}

/// All that is found in the words of a table, sound or not.
struct Found {
    /// The parts; the chunks are those of the used slots, by first byte.
    table: Table,
    /// Where the walk starts, and the "next" of each chunk.
    nexts: Vec<u64>,
    /// The "previous" of each chunk.
    previous: Vec<u64>,
}

impl Found {
    fn by_first_byte(words: &[u64], slots: usize) -> Self {
        let mut used: Vec<(u64, &[u64])> = (1..=slots as u64)
            .map(|number| (number, &words[slot_words(number)]))
            // an empty slot is seven zeros
            .filter(|(_, words)| *words != [0; SLOT])
            .collect();
        used.sort_by_key(|(_, words)| (words[slot::FIRST], words[slot::SIZE]));
        let links = |which: usize| used.iter().map(move |(_, words)| words[which]);
        Self {
            table: Table {
                slots,
                size: words[head::SIZE],
                allocated: words[head::ALLOCATED],
                next_id: words[head::NEXT_ID],
                chunks: used
                    .iter()
                    .map(|&(number, words)| chunk(number, words))
                    .collect(),
            },
            nexts: once(words[head::FIRST_SLOT])
                .chain(links(slot::NEXT))
                .collect(),
            previous: links(slot::PREVIOUS).collect(),
        }
    }

    /// Whether a rule is kept.
    fn keeps(&self, rule: Rule) -> bool {
        let Table {
            size,
            allocated,
            next_id,
            ref chunks,
            ..
        } = self.table;
        let mut each = chunks.iter();
        let mut neighbours = chunks.windows(2);
        let numbers = chunks.iter().map(|c| c.slot);
        match rule {
            Rule::BlockSize => (1..=LARGEST_BLOCK).contains(&size),
            Rule::NextId => next_id >= 2,
            Rule::IdsDistinct => each.map(|c| c.id).collect::<HashSet<_>>().len() == chunks.len(),
            Rule::IdsFromOne => each.all(|c| c.id >= 1),
            Rule::IdsBelowNext => each.all(|c| c.id < next_id),
            Rule::Sizes => each.all(|c| c.size >= 1),
            Rule::Kinds => each.all(|c| c.kind <= 2),
            Rule::FreeLabels => each.filter(|c| c.is_free()).all(|c| c.label == 0),
            Rule::Walk => self.nexts.iter().copied().eq(numbers.chain(once(0))),
            Rule::Previous => once(0)
                .chain(numbers)
                .zip(&self.previous)
                .all(|(n, p)| n == *p),
            Rule::Begins => neighbours.all(|pair| end(&pair[0]) == u128::from(pair[1].first)),
            Rule::FirstByte => chunks.first().map_or(false, |c| c.first == 0),
            Rule::LastEnd => chunks.last().map_or(false, |c| end(c) == u128::from(size)),
            Rule::FreeNeighbours => neighbours.all(|pair| !pair.iter().all(Chunk::is_free)),
            Rule::Allocated => u128::from(allocated) == live_sizes(chunks),
        }
    }
}

/// The chunk in a slot, whatever its words are.
fn chunk(number: u64, words: &[u64]) -> Chunk {
    Chunk {
        slot: number,
        id: words[slot::ID],
        size: words[slot::SIZE],
        first: words[slot::FIRST],
        kind: words[slot::KIND],
        label: words[slot::LABEL],
    }
}

/// Where a chunk ends.
fn end(chunk: &Chunk) -> u128 {
    u128::from(chunk.first) + u128::from(chunk.size)
}

/// The sum of the sizes of the chunks that are not free.
fn live_sizes(chunks: &[Chunk]) -> u128 {
    let live = chunks.iter().filter(|chunk| !chunk.is_free());
    live.map(|chunk| u128::from(chunk.size)).sum()
}
