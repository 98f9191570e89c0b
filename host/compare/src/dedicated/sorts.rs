//! Sorts of steps on dedicated blocks that are sound: what a call came to, and why. Comparisons count
//! them, so that none passes by leaving a sort out.

use super::calls::{word, Call, Step};
use crate::rust::Request;
use crate::sort::sort;

/// A sort of these steps.
pub type Sort = crate::sort::Sort<fn(&Step) -> bool>;

impl Sort {
    /// New blocks.
    pub const NEW: &'static [Sort] = &[
        sort("new, over an occupied one", |step| {
            is_new(step) && is_occupied(step)
        }),
        sort("new, over a labelled one", |step| {
            is_new(step) && is_labelled(step)
        }),
        sort("new, above 2^40", |step| {
            is_new(step) && step.after[word::SIZE] > 1 << 40
        }),
        sort("new, of 2^64 - 1 bytes", |step| {
            is_new(step) && step.after[word::SIZE] == u64::MAX
        }),
        sort("13", |step| step.answer.number == 13),
        sort("13 over an occupied one", |step| {
            step.answer.number == 13 && is_occupied(step)
        }),
    ];

    /// Requests that are accepted.
    pub const PLACED: &'static [Sort] = &[
        sort("taken, of 1 byte", |step| {
            is_placed(step, |request, _| request.size == 1)
        }),
        sort("taken, above 2^40", |step| {
            is_placed(step, |request, _| request.size > 1 << 40)
        }),
        sort("taken, of 2^64 - 1 bytes", |step| {
            is_placed(step, |request, _| request.size == u64::MAX)
        }),
        sort("taken, linear", |step| {
            is_placed(step, |request, _| request.kind == 1)
        }),
        sort("taken, non-linear", |step| {
            is_placed(step, |request, _| request.kind == 2)
        }),
        sort("taken, for an alignment above its size", |step| {
            is_placed(step, |request, _| request.alignment > request.size)
        }),
        sort("taken, under another label", |step| {
            is_placed(step, |request, label| label != 0 && request.label != label)
        }),
        sort("taken, under label 0 after another", |step| {
            is_placed(step, |request, label| label != 0 && request.label == 0)
        }),
        sort("taken, under label 2^64 - 1", |step| {
            is_placed(step, |request, _| request.label == u64::MAX)
        }),
    ];

    /// Requests that are refused.
    pub const REFUSED: &'static [Sort] = &[
        sort("3", |step| is_refused(step, 3, |_, _| true)),
        sort("4", |step| is_refused(step, 4, |_, _| true)),
        sort("5", |step| is_refused(step, 5, |_, _| true)),
        sort("6", |step| is_refused(step, 6, |_, _| true)),
        sort("4 for all of an empty block", |step| {
            is_refused(step, 4, is_for_all)
        }),
        sort("5 for all of an empty block", |step| {
            is_refused(step, 5, is_for_all)
        }),
        sort("6 for all of an empty block", |step| {
            is_refused(step, 6, is_for_all)
        }),
        sort("6 for kind 0", |step| {
            is_refused(step, 6, |request, _| request.kind == 0)
        }),
        sort("6 for 1 or 2 in its last byte", |step| {
            is_refused(step, 6, |request, _| matches!(request.kind as u8, 1 | 2))
        }),
        sort("11 for all of it", |step| {
            is_refused(step, 11, |request, step| {
                request.size == step.before[word::SIZE]
            })
        }),
        sort("11 for another size", |step| {
            is_refused(step, 11, |request, step| {
                request.size != step.before[word::SIZE]
            })
        }),
        sort("12 for a byte less", |step| {
            is_refused(step, 12, |request, step| {
                step.before[word::SIZE] - 1 == request.size
            })
        }),
        sort("12 for a byte more", |step| {
            is_refused(step, 12, |request, step| {
                request.size - 1 == step.before[word::SIZE]
            })
        }),
        sort("12 for the same low half", |step| {
            is_refused(step, 12, |request, step| {
                request.size as u32 == step.before[word::SIZE] as u32
            })
        }),
    ];

    /// What is given back or renamed.
    pub const CHANGED: &'static [Sort] = &[
        sort("given back", |step| {
            is_free(step, |id| id == 1) && is_occupied(step)
        }),
        sort("given back when empty", |step| {
            is_free(step, |id| id == 1) && !is_occupied(step)
        }),
        sort("given back, and the label stays", |step| {
            is_free(step, |id| id == 1) && is_occupied(step) && is_labelled(step)
        }),
        sort("renamed when occupied", |step| {
            is_renamed(step) && is_occupied(step)
        }),
        sort("renamed when empty", |step| {
            is_renamed(step) && !is_occupied(step)
        }),
        sort("renamed to 0", |step| {
            is_renamed(step) && step.after[word::LABEL] == 0
        }),
        sort("renamed to 2^64 - 1", |step| {
            is_renamed(step) && step.after[word::LABEL] == u64::MAX
        }),
        sort("free of id 0", |step| is_free(step, |id| id == 0)),
        sort("free of id 2", |step| is_free(step, |id| id == 2)),
        sort("free of 1 in its low half", |step| {
            is_free(step, |id| id > 1 && id as u32 == 1)
        }),
        sort("free of 18 when occupied", |step| {
            is_free(step, |id| id != 1) && is_occupied(step)
        }),
        sort("rename of id 0", |step| is_rename(step, |id| id == 0)),
        sort("rename of id 2", |step| is_rename(step, |id| id == 2)),
        sort("rename of 1 in its low half", |step| {
            is_rename(step, |id| id > 1 && id as u32 == 1)
        }),
    ];

    /// Questions that are answered.
    pub const ASKED: &'static [Sort] = &[
        sort("the total of an empty block", |step| {
            is_total(step) && step.answer.values[0] == 0
        }),
        sort("the total of an occupied block", |step| {
            is_total(step) && step.answer.values[0] != 0
        }),
        sort("empty", |step| {
            is_asked_whether_empty(step) && step.answer.values[0] == 1
        }),
        sort("not empty", |step| {
            is_asked_whether_empty(step) && step.answer.values[0] == 0
        }),
        sort("the report of an occupied block", |step| {
            is_report(step) && is_occupied(step)
        }),
        sort("the report of an empty block, labelled", |step| {
            is_report(step) && !is_occupied(step) && is_labelled(step)
        }),
        sort("the report of a block without a label", |step| {
            is_report(step) && !is_labelled(step)
        }),
    ];

    /// Every sort.
    pub fn all() -> impl Iterator<Item = &'static Sort> {
        let lists = [
            Self::NEW,
            Self::PLACED,
            Self::REFUSED,
            Self::CHANGED,
            Self::ASKED,
        ];
        lists.into_iter().flatten()
    }
}

fn is_occupied(step: &Step) -> bool {
    step.before[word::ALLOCATED] != 0
}

fn is_labelled(step: &Step) -> bool {
    step.before[word::LABEL] != 0
}

fn is_new(step: &Step) -> bool {
    matches!(step.call, Call::New(_)) && step.answer.number == 0
}

/// Whether a request was accepted, where this holds of it and of the label before it.
fn is_placed(step: &Step, holds: fn(Request, u64) -> bool) -> bool {
    match step.call {
        Call::Allocate(request) => {
            step.answer.number == 0 && holds(request, step.before[word::LABEL])
        }
        _ => false,
    }
}

/// Whether a request was refused with this number, where this holds.
fn is_refused(step: &Step, number: u64, holds: fn(Request, &Step) -> bool) -> bool {
    match step.call {
        Call::Allocate(request) => step.answer.number == number && holds(request, step),
        _ => false,
    }
}

fn is_for_all(request: Request, step: &Step) -> bool {
    !is_occupied(step) && request.size == step.before[word::SIZE]
}

fn is_free(step: &Step, is_such: fn(u64) -> bool) -> bool {
    matches!(step.call, Call::Free(id) if is_such(id)) && step.answer.number != 2
}

fn is_rename(step: &Step, is_such: fn(u64) -> bool) -> bool {
    matches!(step.call, Call::Rename(id, _) if is_such(id)) && step.answer.number != 2
}

fn is_renamed(step: &Step) -> bool {
    is_rename(step, |id| id == 1)
}

fn is_total(step: &Step) -> bool {
    matches!(step.call, Call::Allocated) && step.answer.number == 0
}

fn is_asked_whether_empty(step: &Step) -> bool {
    matches!(step.call, Call::IsEmpty) && step.answer.number == 0
}

fn is_report(step: &Step) -> bool {
    matches!(step.call, Call::Report) && step.answer.number == 0
}
