//! Calls of a dedicated block: what the library answers, and the right answers.

use lunkaseyo::ffi::{self, Record};

use crate::requests::fault;
use crate::rust::{self, AllocationError, DedicatedBlockAllocator, Request, SubAllocator};

/// What out-values, and the words beside those that are lent, hold before a call.
const SPOILT: u64 = 0xA5A5_A5A5_A5A5_A5A5;

/// Words before and behind those that are lent, which are to be left alone.
const MARGIN: usize = 4;

/// What the Rust reports for a name where there never was one.
const UNNAMED: &str = "<Unnamed Dedicated allocation>";

/// Which word of a record is which.
pub mod word {
    /// The block's size.
    pub const SIZE: usize = 0;
    /// The bytes allocated.
    pub const ALLOCATED: usize = 1;
    /// The label.
    pub const LABEL: usize = 2;
}

/// One call of a dedicated block.
#[derive(Clone, Copy, Debug)]
pub enum Call {
    /// Makes a new block of this size.
    New(u64),
    /// Asks for memory.
    Allocate(Request),
    /// Gives this id back.
    Free(u64),
    /// Gives this id this label.
    Rename(u64, u64),
    /// Asks for the bytes allocated.
    Allocated,
    /// Asks whether nothing is allocated.
    IsEmpty,
    /// Asks for the report.
    Report,
}

impl Call {
    /// The calls that write nothing.
    pub const QUESTIONS: [Call; 3] = [Call::Allocated, Call::IsEmpty, Call::Report];
}

/// What a call answers.
#[derive(Clone, Copy, Debug, PartialEq, Eq)]
pub struct Answer {
    /// 0, or the refusal's number.
    pub number: u64,
    /// The out-values, as many as the call has: offset and id, the one that was asked for, or first
    /// byte, size and label.
    pub values: [u64; 3],
}

impl Answer {
    /// The answer of a call that tells nothing.
    pub const fn plain(number: u64) -> Self {
        Self {
            number,
            values: [0; 3],
        }
    }

    /// The answer of a call that is accepted, and tells this.
    const fn told(values: [u64; 3]) -> Self {
        Self { number: 0, values }
    }
}

/// A call with its answer, between two records.
pub struct Step {
    /// The record before the call.
    pub before: Record,
    /// The call.
    pub call: Call,
    /// Its answer.
    pub answer: Answer,
    /// The record after the call.
    pub after: Record,
}

// ---- the library

/// What the library answers to a call on this record, and leaves in it.
pub fn asked(record: &mut Record, call: Call) -> Answer {
    match call {
        Call::New(size) => told(record, |record, []| ffi::dedicated_new(record, size)),
        Call::Allocate(request) => asked_for(record, request),
        Call::Free(id) => told(record, |record, []| ffi::dedicated_free(record, id)),
        Call::Rename(id, label) => told(record, |record, []| {
            ffi::dedicated_rename_allocation(record, id, label)
        }),
        Call::Allocated => told(record, |record, [out]| {
            ffi::dedicated_allocated(record, out)
        }),
        Call::IsEmpty => told(record, |record, [out]| ffi::dedicated_is_empty(record, out)),
        Call::Report => told(record, |record, out| {
            ffi::dedicated_report_allocations(record, out)
        }),
    }
}

fn asked_for(record: &mut Record, request: Request) -> Answer {
    told(record, |record, [offset, id]| {
        ffi::dedicated_allocate(record, request.words(), offset, id)
    })
}

/// The answer of a call with this many out-values.
fn told<const VALUES: usize>(
    record: &mut Record,
    call: impl FnOnce(&mut Record, &mut [u64; VALUES]) -> u64,
) -> Answer {
    let mut out = [SPOILT; VALUES];
    let number = lent(record, |record| lent(&mut out, |out| call(record, out)));
    let mut values = [0; 3];
    values[..VALUES].copy_from_slice(&out);
    Answer { number, values }
}

/// Lends words that stand between others. Fails where one of the others is changed.
fn lent<const WORDS: usize>(
    words: &mut [u64; WORDS],
    call: impl FnOnce(&mut [u64; WORDS]) -> u64,
) -> u64 {
    let mut room = [SPOILT; 3 + 2 * MARGIN];
    let place = MARGIN..MARGIN + WORDS;
    room[place.clone()].copy_from_slice(words);
    let middle = (&mut room[place.clone()]).try_into();
    let number = call(middle.expect("as many words as are lent"));
    words.copy_from_slice(&room[place.clone()]);
    room[place].fill(SPOILT);
    assert_eq!(room, [SPOILT; 3 + 2 * MARGIN], "words that were not lent");
    number
}

// ---- the right answers

/// The right answer to a call on any record, and the record after it.
pub fn expected(record: Record, call: Call) -> (Answer, Record) {
    let number = match call {
        // it looks at no old content
        Call::New(0) => 13,
        Call::New(_) => 0,
        _ if is_sound(record) => 0,
        _ => 2,
    };
    if number != 0 {
        return (Answer::plain(number), record);
    }
    let mut block = block_of(record);
    let answer = answered(&mut block, call);
    (answer, record_of(&block))
}

/// The size is at least 1, and nothing or all of it is allocated.
pub fn is_sound([size, allocated, _]: Record) -> bool {
    size >= 1 && (allocated == 0 || allocated == size)
}

/// Makes a call on a sound block, and gives the right answer to it. The Rust is asked where its answers
/// count: about well-formed requests, and about any id. To all others the rules give the number.
pub fn answered(block: &mut DedicatedBlockAllocator, call: Call) -> Answer {
    match call {
        Call::New(0) => Answer::plain(13),
        Call::New(size) => {
            *block = DedicatedBlockAllocator::new(size);
            Answer::plain(0)
        }
        Call::Allocate(request) => match fault(request) {
            Some(number) => Answer::plain(number),
            None => placed(rust::allocate(block, request)),
        },
        Call::Free(id) => changed(rust::free(block, id)),
        Call::Rename(id, label) => changed(rust::rename(block, id, label)),
        Call::Allocated => Answer::told([block.allocated(), 0, 0]),
        Call::IsEmpty => Answer::told([u64::from(block.is_empty()), 0, 0]),
        Call::Report => Answer::told(report(block)),
    }
}

/// The Rust's answer to a well-formed request.
fn placed(answer: rust::Result<(u64, u64)>) -> Answer {
    match answer {
        Ok((offset, id)) => Answer::told([offset, id, 0]),
        Err(AllocationError::OutOfMemory) => Answer::plain(11),
        Err(AllocationError::Internal(_)) => Answer::plain(12),
        Err(fault) => panic!("{fault}"),
    }
}

/// The Rust's answer to a free or a rename.
fn changed(answer: rust::Result<()>) -> Answer {
    match answer {
        Ok(()) => Answer::plain(0),
        Err(AllocationError::Internal(_)) => Answer::plain(18),
        Err(fault) => panic!("{fault}"),
    }
}

/// The Rust's report, which has one entry.
fn report(block: &DedicatedBlockAllocator) -> [u64; 3] {
    let entries = rust::reported(block);
    let [(name, first_byte, size)] = &entries[..] else {
        panic!("{} entries", entries.len());
    };
    assert_eq!(name == UNNAMED, block.name.is_none());
    let label = if name == UNNAMED { 0 } else { label(name) };
    [*first_byte, *size, label]
}

/// The Rust's block that a sound record describes. Label 0 is no name.
fn block_of([size, allocated, label]: Record) -> DedicatedBlockAllocator {
    let mut block = DedicatedBlockAllocator::new(size);
    block.allocated = allocated;
    block.name = (label != 0).then(|| label.to_string());
    block
}

/// The words of the Rust's block.
pub fn record_of(block: &DedicatedBlockAllocator) -> Record {
    let name = block.name.as_deref();
    [block.size, block.allocated, name.map_or(0, label)]
}

fn label(name: &str) -> u64 {
    name.parse().expect("names are labels")
}
