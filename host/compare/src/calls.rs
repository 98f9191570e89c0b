//! Calls of a block: what the library answers, and the right answers to hold against it.

use lunkaseyo::ffi;

use crate::reading::{read, Reading};
use crate::requests::fault;
use crate::rust::Request;
use crate::table::Table;
use crate::tracked::{Placed, Tracked};

/// The next id where none is left to hand out.
pub const NO_ID: u64 = u64::MAX;

/// What out-values hold before a call.
pub const SPOILT: u64 = 0xA5A5_A5A5_A5A5_A5A5;

/// One call of a block.
#[derive(Clone, Copy, Debug)]
pub enum Call {
    /// Asks for memory.
    Allocate(Request),
    /// Gives the chunk with this id back.
    Free(u64),
    /// Gives the chunk with this id this label.
    Rename(u64, u64),
}

/// What a call answers.
#[derive(Clone, Copy, Debug, PartialEq, Eq)]
pub struct Answer {
    /// 0, or the refusal's number.
    pub number: u64,
    /// Where the bytes that are handed out begin; 0 where none are.
    pub offset: u64,
    /// The id that they are given back by; 0 where none are.
    pub id: u64,
}

impl Answer {
    /// The answer of a call that hands out nothing.
    pub const fn plain(number: u64) -> Self {
        Self {
            number,
            offset: 0,
            id: 0,
        }
    }
}

/// A call with its answer, between two tables.
pub struct Step {
    /// The block before the call.
    pub before: Table,
    /// The call.
    pub call: Call,
    /// Its answer.
    pub answer: Answer,
    /// The block after the call.
    pub after: Table,
}

/// What the library answers to a call on these words, and leaves in them.
pub fn asked(words: &mut [u64], call: Call) -> Answer {
    match call {
        Call::Allocate(request) => {
            let (mut offset, mut id) = (SPOILT, SPOILT);
            let number = ffi::block_allocate(words, request.words(), &mut offset, &mut id);
            Answer { number, offset, id }
        }
        Call::Free(id) => Answer::plain(ffi::block_free(words, id)),
        Call::Rename(id, label) => Answer::plain(ffi::block_rename_allocation(words, id, label)),
    }
}

/// The right answer to a call on any words, and the words after it.
pub fn expected(words: &[u64], call: Call) -> (Answer, Vec<u64>) {
    match read(words) {
        Reading::NotATable => (Answer::plain(1), words.to_vec()),
        Reading::Unsound(_) => (Answer::plain(2), words.to_vec()),
        Reading::Sound(table) => {
            let mut block = Tracked::of(&table);
            let answer = answered(&mut block, call);
            (answer, block.table().words())
        }
    }
}

/// Makes a call, and gives the right answer to it. The Rust is asked where its answers count: about
/// well-formed requests and live ids. To all others the rules give the number.
pub fn answered(block: &mut Tracked, call: Call) -> Answer {
    match call {
        Call::Allocate(request) => match fault(request) {
            Some(number) => Answer::plain(number),
            None => placed(block, request),
        },
        Call::Free(id) | Call::Rename(id, _) if !block.is_live(id) => Answer::plain(10),
        Call::Free(id) => {
            block.free(id);
            Answer::plain(0)
        }
        Call::Rename(id, label) => {
            block.rename(id, label);
            Answer::plain(0)
        }
    }
}

/// The answer to a well-formed request.
fn placed(block: &mut Tracked, request: Request) -> Answer {
    match block.allocate(request) {
        Placed::At { offset, id } => Answer {
            number: 0,
            offset,
            id,
        },
        Placed::OutOfMemory => Answer::plain(out_of_what(block, request)),
        Placed::NoEmptySlot => Answer::plain(9),
    }
}

/// What the Rust's `OutOfMemory` stands for: 8 where it would not say so with an id left, else 7.
fn out_of_what(block: &Tracked, request: Request) -> u64 {
    let table = block.table();
    if table.next_id < NO_ID {
        return 7;
    }
    let with_an_id = Table {
        next_id: NO_ID - 1,
        ..table
    };
    match Tracked::of(&with_an_id).allocate(request) {
        Placed::OutOfMemory => 7,
        Placed::At { .. } | Placed::NoEmptySlot => 8,
    }
}
