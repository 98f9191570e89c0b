//! A block on both sides, compared after each call.

use std::fmt::Debug;
use std::mem;

use lunkaseyo::ffi;

use crate::calls::{answered, asked, Call, Step, SPOILT};
use crate::random::Random;
use crate::reading::{read, Reading};
use crate::table::{head, word_count, Table};
use crate::tracked::Tracked;

/// The same block in the library's words and in the Rust.
pub struct Both {
    words: Vec<u64>,
    block: Tracked,
    table: Table,
}

impl Both {
    /// A new block, in words that held anything.
    pub fn new(size: u64, slots: usize, random: &mut Random) -> Self {
        let mut words: Vec<u64> = (0..word_count(slots)).map(|_| random.word()).collect();
        assert_eq!(ffi::block_new(&mut words, size), 0);
        let block = Tracked::new(size, slots);
        let table = block.table();
        let both = Self {
            words,
            block,
            table,
        };
        both.assert_equal("a new block");
        both
    }

    /// The block that a sound table describes.
    pub fn of(table: Table) -> Self {
        Self {
            words: table.words(),
            block: Tracked::of(&table),
            table,
        }
    }

    /// What its table says.
    pub fn table(&self) -> &Table {
        &self.table
    }

    /// The library's words.
    pub fn words(&self) -> &[u64] {
        &self.words
    }

    /// What the Rust reports of each live chunk, in any order.
    pub fn reported(&self) -> Vec<(String, u64, u64)> {
        self.block.reported()
    }

    /// Sets the next id by hand, to one that is not below it.
    pub fn set_next_id(&mut self, next_id: u64) {
        self.words[head::NEXT_ID] = next_id;
        self.block.skip_ids(next_id - self.table.next_id);
        self.table.next_id = next_id;
    }

    /// Makes a call on both sides. Fails where they differ in the answer, in a chunk or in a word.
    pub fn call(&mut self, call: Call) -> Step {
        let answer = answered(&mut self.block, call);
        let before = mem::replace(&mut self.table, self.block.table());
        let ours = asked(&mut self.words, call);
        assert_eq!(ours, answer, "{call:?} on {before:?}");
        if answer.number != 0 {
            assert_eq!(self.table, before, "{call:?} is refused");
        }
        self.assert_equal(call);
        Step {
            before,
            call,
            answer,
            after: self.table.clone(),
        }
    }

    /// Fails unless every word is as it should be written, every chunk as it should be read, the total
    /// that of the chunks, and the block empty where the Rust says so.
    fn assert_equal(&self, after: impl Debug) {
        let table = &self.table;
        assert_eq!(self.words, table.words(), "{after:?} makes {table:?}");
        let reading = read(&self.words);
        assert!(matches!(&reading, Reading::Sound(read) if read == table));
        let mut allocated = SPOILT;
        let number = ffi::block_allocated(&self.words, &mut allocated);
        assert_eq!((number, allocated), (0, table.allocated), "{after:?}");
        let mut is_empty = SPOILT;
        let number = ffi::block_is_empty(&self.words, &mut is_empty);
        let expected = u64::from(self.block.is_empty());
        assert_eq!((number, is_empty), (0, expected), "{after:?}");
    }
}
