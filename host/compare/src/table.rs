//! Chunk tables in parts, and the words that they are written as.

use std::ops::Range;

/// The largest block.
pub const LARGEST_BLOCK: u64 = 1 << 40;

/// The most slots that a table has.
pub const MOST_SLOTS: usize = 512;

/// The words before the first slot.
pub const HEAD: usize = 4;

/// The words of a slot.
pub const SLOT: usize = 7;

/// Which word of the head is which.
pub mod head {
    /// The block's size.
    pub const SIZE: usize = 0;
    /// The bytes allocated.
    pub const ALLOCATED: usize = 1;
    /// The next id.
    pub const NEXT_ID: usize = 2;
    /// The number of the slot that starts at 0.
    pub const FIRST_SLOT: usize = 3;
}

/// Which word of a slot is which.
pub mod slot {
    /// The chunk's id.
    pub const ID: usize = 0;
    /// The chunk's size.
    pub const SIZE: usize = 1;
    /// The chunk's first byte.
    pub const FIRST: usize = 2;
    /// The chunk's kind.
    pub const KIND: usize = 3;
    /// The chunk's label.
    pub const LABEL: usize = 4;
    /// The number of the slot of the chunk after it.
    pub const NEXT: usize = 5;
    /// The number of the slot of the chunk before it.
    pub const PREVIOUS: usize = 6;
}

/// A chunk, and the number (from 1) of its slot.
#[derive(Clone, Copy, Debug, PartialEq, Eq)]
pub struct Chunk {
    /// The slot's number.
    pub slot: u64,
    /// Its id.
    pub id: u64,
    /// Its size, padding included.
    pub size: u64,
    /// Its first byte.
    pub first: u64,
    /// 0 free, 1 linear, 2 non-linear.
    pub kind: u64,
    /// The number that stands for its name.
    pub label: u64,
}

impl Chunk {
    /// Whether it can be given to a request.
    pub fn is_free(&self) -> bool {
        self.kind == 0
    }
}

/// What a table says. The links between slots follow from the order of the chunks.
#[derive(Clone, Debug, PartialEq, Eq)]
pub struct Table {
    /// How many slots there are.
    pub slots: usize,
    /// The block's size.
    pub size: u64,
    /// The bytes allocated.
    pub allocated: u64,
    /// The id that the next new chunk takes.
    pub next_id: u64,
    /// The chunks by rising address.
    pub chunks: Vec<Chunk>,
}

impl Table {
    /// The words of this table, whether or not it is sound. Slots without a chunk are zeros.
    pub fn words(&self) -> Vec<u64> {
        let number = |place: usize| self.chunks.get(place).map_or(0, |chunk| chunk.slot);
        let mut words = vec![0; word_count(self.slots)];
        words[..HEAD].copy_from_slice(&[self.size, self.allocated, self.next_id, number(0)]);
        for (place, chunk) in self.chunks.iter().enumerate() {
            let next = number(place + 1);
            let previous = place.checked_sub(1).map_or(0, number);
            words[slot_words(chunk.slot)].copy_from_slice(&[
                chunk.id,
                chunk.size,
                chunk.first,
                chunk.kind,
                chunk.label,
                next,
                previous,
            ]);
        }
        words
    }

    /// The numbers of the slots that hold no chunk, in order.
    pub fn empty_slots(&self) -> Vec<u64> {
        let mut is_empty = vec![true; self.slots];
        for chunk in &self.chunks {
            is_empty[chunk.slot as usize - 1] = false;
        }
        let numbers = 1..=self.slots as u64;
        numbers
            .filter(|&number| is_empty[number as usize - 1])
            .collect()
    }
}

/// How many words a table of this many slots has.
pub fn word_count(slots: usize) -> usize {
    HEAD + SLOT * slots
}

/// How many slots a table of this many words has, if that many words are a table.
pub fn slot_count(words: usize) -> Option<usize> {
    (1..=MOST_SLOTS).find(|&slots| word_count(slots) == words)
}

/// The place of one word of the slot with this number, from 1.
pub fn place(number: u64, word: usize) -> usize {
    HEAD + SLOT * (number as usize - 1) + word
}

/// The places of all words of the slot with this number, from 1.
pub fn slot_words(number: u64) -> Range<usize> {
    place(number, 0)..place(number, SLOT)
}
