//! Sorts of steps: what a call came to, and why. Comparisons count them, so that none passes by
//! leaving a sort out.

use crate::calls::{Call, Step, NO_ID};
use crate::requests::fault;
use crate::rust::{self, Request};
use crate::sort::sort;
use crate::table::{Chunk, Table};

/// A sort of these steps.
pub type Sort = crate::sort::Sort<fn(&Step) -> bool>;

impl Sort {
    /// Requests that are accepted.
    pub const PLACED: &'static [Sort] = &[
        sort("a chunk that is taken whole", is_taken_whole),
        sort("the same, behind padding", |step| {
            is_taken_whole(step) && is_padded(step)
        }),
        sort("the same, in a full table", |step| {
            is_taken_whole(step) && is_full(&step.before)
        }),
        sort("the same, with no id left", |step| {
            is_taken_whole(step) && step.before.next_id == NO_ID
        }),
        sort("a whole block", |step| {
            is_taken_whole(step) && step.before.chunks.len() == 1
        }),
        sort("a split", is_split),
        sort("a split of the first chunk", |step| {
            is_split(step) && step.after.chunks[0].id == step.answer.id
        }),
        sort("a split that takes the last id", |step| {
            is_split(step) && step.after.next_id == NO_ID
        }),
        sort("a slot that is used again", |step| {
            let taken = step.after.chunks.iter().find(|c| c.id == step.answer.id);
            let used = step.before.chunks.iter().map(|c| c.slot).max();
            is_split(step) && taken.map(|c| c.slot) < used
        }),
        sort("padding", is_padded),
        sort("padding for the page of the chunk before", |step| {
            placed(step).map_or(false, |(request, chunk)| {
                step.answer.offset > rust::align_up(chunk.first, request.alignment)
            })
        }),
        sort("a lower chunk that is larger", |step| {
            is_passed_over(step, |other, taken, _| {
                other.first < taken.first && other.size > taken.size
            })
        }),
        sort("a higher chunk of the same size", |step| {
            is_passed_over(step, |other, taken, _| {
                other.first > taken.first && other.size == taken.size
            })
        }),
        sort("a smaller chunk, but for padding or page", |step| {
            is_passed_over(step, |other, taken, request| {
                other.size < taken.size && other.size >= request.size
            })
        }),
    ];

    /// Well-formed requests, accepted or refused.
    pub const ASKED: &'static [Sort] = &[
        sort("a page that the chunk after denies", |step| {
            is_denied_by_next(step, |_| true)
        }),
        sort("a last byte that padding moves", |step| {
            is_denied_by_next(step, |would| !would.is_denied_at(would.chunk.first))
        }),
        sort("7 for more than is free", |step| {
            is_refused(step, 7, |request, before| {
                request.size > before.size - before.allocated
            })
        }),
        sort("7 for what is free in parts", |step| {
            is_refused(step, 7, |request, before| {
                request.size <= before.size - before.allocated
                    && free(before).all(|chunk| chunk.size < request.size)
            })
        }),
        sort("7 for padding or page", |step| {
            is_refused(step, 7, |request, before| {
                free(before).any(|chunk| chunk.size >= request.size)
            })
        }),
        sort("8", |step| is_refused(step, 8, |_, _| true)),
        sort("8 in a full table", |step| {
            is_refused(step, 8, |_, before| is_full(before))
        }),
        sort("8 beside a chunk that would be filled", |step| {
            is_refused(step, 8, has_filled)
        }),
        sort("9", |step| is_refused(step, 9, |_, _| true)),
        sort("9 beside a chunk that would be filled", |step| {
            is_refused(step, 9, has_filled)
        }),
    ];

    /// Requests that are not well-formed.
    pub const FAULTY: &'static [Sort] = &[
        sort("3", |step| is_refused(step, 3, |_, _| true)),
        sort("4", |step| is_refused(step, 4, |_, _| true)),
        sort("5", |step| is_refused(step, 5, |_, _| true)),
        sort("6", |step| is_refused(step, 6, |_, _| true)),
        sort("3 with all other faults", |step| {
            is_refused(step, 3, |request, _| {
                let sized = Request { size: 1, ..request };
                let aligned = Request {
                    alignment: 1,
                    ..sized
                };
                let paged = Request {
                    granularity: 1,
                    ..aligned
                };
                [sized, aligned, paged].map(fault) == [Some(4), Some(5), Some(6)]
            })
        }),
        sort("a kind that is 1 or 2 in its last byte", |step| {
            is_refused(step, 6, |request, _| matches!(request.kind as u8, 1 | 2))
        }),
        sort("an alignment of 0", |step| {
            is_refused(step, 4, |request, _| request.alignment == 0)
        }),
        sort("an alignment of two bits", |step| {
            is_refused(step, 4, |request, _| request.alignment.count_ones() == 2)
        }),
        sort("a granularity of 0", |step| {
            is_refused(step, 5, |request, _| request.granularity == 0)
        }),
        sort("a granularity of two bits", |step| {
            is_refused(step, 5, |request, _| request.granularity.count_ones() == 2)
        }),
        sort("a fault where there is no room", |step| {
            is_faulty(step) && free(&step.before).next().is_none()
        }),
        sort("a fault where no id is left", |step| {
            is_faulty(step) && step.before.next_id == NO_ID
        }),
        sort("a fault in a full table", |step| {
            is_faulty(step) && is_full(&step.before)
        }),
    ];

    /// Live chunks that are given back or renamed.
    pub const LIVE: &'static [Sort] = &[
        sort("given back between live ones", |step| {
            is_given_back(step, true, 0)
        }),
        sort("given back before a free one", |step| {
            is_given_back(step, true, 1)
        }),
        sort("given back after a free one", |step| {
            is_given_back(step, false, 1)
        }),
        sort("given back between free ones", |step| {
            is_given_back(step, false, 2)
        }),
        sort("the last one given back", |step| {
            step.before.allocated > 0 && step.after.allocated == 0
        }),
        sort("renamed", |step| {
            matches!(step.call, Call::Rename(_, label) if label != 0) && step.answer.number == 0
        }),
        sort("renamed to 0", |step| {
            matches!(step.call, Call::Rename(_, 0)) && step.answer.number == 0
        }),
    ];

    /// Ids that no live chunk has.
    pub const DEAD: &'static [Sort] = &[
        sort("free of id 0", |step| is_dead_free(step, |id, _| id == 0)),
        sort("rename of id 0", |step| {
            is_dead_rename(step, |id, _| id == 0)
        }),
        sort("free of a free chunk's id", |step| {
            is_dead_free(step, has_id)
        }),
        sort("rename of a free chunk's id", |step| {
            is_dead_rename(step, has_id)
        }),
        sort("free of an id that is gone", |step| {
            is_dead_free(step, is_gone)
        }),
        sort("rename of an id that is gone", |step| {
            is_dead_rename(step, is_gone)
        }),
        sort("free of an id not handed out yet", |step| {
            is_dead_free(step, |id, before| id >= before.next_id)
        }),
        sort("rename of an id not handed out yet", |step| {
            is_dead_rename(step, |id, before| id >= before.next_id)
        }),
    ];

    /// How full tables are.
    pub const FULL: &'static [Sort] = &[
        sort("on one slot", |step| step.before.slots == 1),
        sort("on a full table", |step| is_full(&step.before)),
        sort("on many slots, most of them used", |step| {
            step.before.slots >= 64 && 4 * step.before.chunks.len() >= 3 * step.before.slots
        }),
        sort("on many slots, few of them used", |step| {
            step.before.slots >= 64 && 4 * step.before.chunks.len() <= step.before.slots
        }),
    ];

    /// Every sort.
    pub fn all() -> impl Iterator<Item = &'static Sort> {
        let lists = [
            Self::PLACED,
            Self::ASKED,
            Self::FAULTY,
            Self::LIVE,
            Self::DEAD,
            Self::FULL,
        ];
        lists.into_iter().flatten()
    }
}

// ---- tables

fn free(table: &Table) -> impl Iterator<Item = &Chunk> {
    table.chunks.iter().filter(|chunk| chunk.is_free())
}

fn is_full(table: &Table) -> bool {
    table.chunks.len() == table.slots
}

fn has_id(id: u64, table: &Table) -> bool {
    table.chunks.iter().any(|chunk| chunk.id == id)
}

/// Whether a chunk had this id once.
fn is_gone(id: u64, table: &Table) -> bool {
    (1..table.next_id).contains(&id) && !has_id(id, table)
}

/// Whether some free chunk would be taken whole, but for its neighbours.
fn has_filled(request: Request, table: &Table) -> bool {
    free(table).any(|chunk| {
        let padding = rust::align_up(chunk.first, request.alignment) - chunk.first;
        padding <= chunk.size && chunk.size - padding == request.size
    })
}

// ---- requests

/// How many chunks more there are after the step.
fn more_chunks(step: &Step) -> isize {
    step.after.chunks.len() as isize - step.before.chunks.len() as isize
}

/// The request that was accepted, and the free chunk that it was put into.
fn placed(step: &Step) -> Option<(Request, &Chunk)> {
    let Call::Allocate(request) = step.call else {
        return None;
    };
    let holds = |chunk: &&Chunk| chunk.first + chunk.size > step.answer.offset;
    let chunk = step.before.chunks.iter().find(holds)?;
    (step.answer.number == 0).then_some((request, chunk))
}

fn is_taken_whole(step: &Step) -> bool {
    placed(step).is_some() && more_chunks(step) == 0
}

fn is_split(step: &Step) -> bool {
    placed(step).is_some() && more_chunks(step) == 1
}

fn is_padded(step: &Step) -> bool {
    placed(step).map_or(false, |(_, chunk)| step.answer.offset > chunk.first)
}

/// Whether such a free chunk was passed over for the one that the request was put into.
fn is_passed_over(step: &Step, is_such: fn(&Chunk, &Chunk, Request) -> bool) -> bool {
    placed(step).map_or(false, |(request, taken)| {
        free(&step.before).any(|other| is_such(other, taken, request))
    })
}

/// Whether a request was refused with this number, where this holds.
fn is_refused(step: &Step, number: u64, holds: fn(Request, &Table) -> bool) -> bool {
    match step.call {
        Call::Allocate(request) => step.answer.number == number && holds(request, &step.before),
        _ => false,
    }
}

fn is_faulty(step: &Step) -> bool {
    matches!(step.call, Call::Allocate(request) if fault(request).is_some())
}

/// A request in a free chunk that is large enough, before a live chunk of the other kind.
struct Would<'a> {
    request: Request,
    chunk: &'a Chunk,
    next: &'a Chunk,
}

impl Would<'_> {
    /// Whether the last byte would share a page with the next chunk.
    fn is_denied_at(&self, offset: u64) -> bool {
        let Request {
            size, granularity, ..
        } = self.request;
        rust::is_on_same_page(offset, size, self.next.first, granularity)
    }
}

/// Whether the page of the next chunk keeps the request out of a free chunk, of such a sort, that is
/// smaller than the one it was put into.
fn is_denied_by_next(step: &Step, is_such: fn(&Would) -> bool) -> bool {
    let request = match step.call {
        Call::Allocate(request) if fault(request).is_none() => request,
        _ => return false,
    };
    let most = placed(step).map_or(u64::MAX, |(_, taken)| taken.size);
    step.before.chunks.windows(2).any(|pair| {
        let (chunk, next) = (&pair[0], &pair[1]);
        let would = Would {
            request,
            chunk,
            next,
        };
        let offset = rust::align_up(chunk.first, request.alignment);
        let is_large_enough = chunk.size < most
            && chunk.size >= request.size
            && offset - chunk.first <= chunk.size - request.size;
        chunk.is_free()
            && is_large_enough
            && next.kind != request.kind
            && would.is_denied_at(offset)
            && is_such(&would)
    })
}

// ---- ids

/// Whether a chunk was given back and this many were merged, its own id surviving or not.
fn is_given_back(step: &Step, survives: bool, merged: isize) -> bool {
    match step.call {
        Call::Free(id) => {
            step.answer.number == 0
                && has_id(id, &step.after) == survives
                && more_chunks(step) == -merged
        }
        _ => false,
    }
}

fn is_dead_free(step: &Step, is_such: fn(u64, &Table) -> bool) -> bool {
    matches!(step.call, Call::Free(id) if is_such(id, &step.before)) && step.answer.number == 10
}

fn is_dead_rename(step: &Step, is_such: fn(u64, &Table) -> bool) -> bool {
    matches!(step.call, Call::Rename(id, _) if is_such(id, &step.before))
        && step.answer.number == 10
}
