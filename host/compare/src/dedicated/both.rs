//! A dedicated block on both sides, compared after each call.

use lunkaseyo::ffi::Record;

use super::calls::{answered, asked, record_of, Call, Step};
use crate::random::Random;
use crate::rust::DedicatedBlockAllocator;

/// The same block in the library's record and in the Rust.
pub struct Both {
    record: Record,
    block: DedicatedBlockAllocator,
}

impl Both {
    /// A new block of this size, which is not 0, in words that held anything.
    pub fn new(size: u64, random: &mut Random) -> Self {
        let mut record = [(); 3].map(|()| random.word());
        assert_eq!(asked(&mut record, Call::New(size)).number, 0);
        let block = DedicatedBlockAllocator::new(size);
        assert_eq!(record, record_of(&block));
        Self { record, block }
    }

    /// Its record.
    pub fn record(&self) -> Record {
        self.record
    }

    /// Makes a call on both sides, and then asks all questions. Fails where they differ in an answer or in
    /// a word.
    pub fn call(&mut self, call: Call) -> [Step; 4] {
        let [allocated, is_empty, report] = Call::QUESTIONS;
        [call, allocated, is_empty, report].map(|call| self.step(call))
    }

    fn step(&mut self, call: Call) -> Step {
        let before = self.record;
        let answer = answered(&mut self.block, call);
        let ours = asked(&mut self.record, call);
        assert_eq!(ours, answer, "{call:?} on {before:?}");
        let after = record_of(&self.block);
        assert_eq!(self.record, after, "{call:?} on {before:?}");
        if answer.number != 0 {
            assert_eq!(after, before, "{call:?} is refused");
        }
        Step {
            before,
            call,
            answer,
            after,
        }
    }
}
