//! A sample of the Rust's answers to calls on dedicated blocks, recorded for the program `replay`.
//!
//! It follows the sample of [`crate::blocks`] in the same file, which is kept in the repository.

use std::iter;

use super::caller::{any_call, any_size};
use super::calls::{answered, record_of, word, Call, Step};
use crate::random::Random;
use crate::rust::DedicatedBlockAllocator;

/// How many calls are recorded, the reports not counted.
pub const CALLS: usize = 2_000;

const COMMENT: &str = "\
# Answers of gpu-allocator 0.28.0, as host/compare's record_calls writes them: of a dedicated block 10 a new one, 11 allocate, \
12 free, 13 rename, 14 the report
# Arguments, number, for 11 offset and id, for 11 to 13 the bytes allocated and the label after it; for 14 first byte, size and \
label; the paper gives 3 to 6 and 13
";

/// The sample: comments, then a line for each call.
pub fn recorded() -> String {
    let lines = steps().into_iter().map(|step| line(&step) + "\n");
    iter::once(COMMENT.to_owned()).chain(lines).collect()
}

/// The steps of the sample: random calls on one block after another, each with the report after it.
pub fn steps() -> Vec<Step> {
    // in this series each sort of steps comes up: tests/recorded_answers.rs counts
    let mut random = Random::seeded(64);
    let mut steps = Vec::new();
    let size = any_size(&mut random);
    let mut block = DedicatedBlockAllocator::new(size);
    steps.push(step(&mut block, Call::New(size)));
    for _ in 1..CALLS {
        let call = any_call(record_of(&block), &mut random);
        steps.push(step(&mut block, call));
        steps.push(step(&mut block, Call::Report));
    }
    steps
}

fn step(block: &mut DedicatedBlockAllocator, call: Call) -> Step {
    let before = record_of(block);
    let answer = answered(block, call);
    let after = record_of(block);
    Step {
        before,
        call,
        answer,
        after,
    }
}

fn line(step: &Step) -> String {
    let [allocated, label] = [word::ALLOCATED, word::LABEL].map(|word| step.after[word]);
    let number = step.answer.number;
    let [first, second, third] = step.answer.values;
    match step.call {
        Call::New(size) => format!("10 {size} {number}"),
        Call::Allocate(request) => {
            let asked = request.words().map(|word| word.to_string()).join(" ");
            format!("11 {asked} {number} {first} {second} {allocated} {label}")
        }
        Call::Free(id) => format!("12 {id} {number} {allocated} {label}"),
        Call::Rename(id, given) => format!("13 {id} {given} {number} {allocated} {label}"),
        Call::Report => format!("14 {first} {second} {third}"),
        Call::Allocated | Call::IsEmpty => unreachable!("they are not recorded"),
    }
}
