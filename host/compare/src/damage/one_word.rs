//! Damages of one word.

use super::Leaves::{self, Any, Only, Sound, Unsound};
use super::{any_chunk, any_place, between, Change, Damage};
use crate::random::Random;
use crate::reading::Rule;
use crate::table::{head, place, slot, Chunk, Table, LARGEST_BLOCK, SLOT};

/// A word's place, and what it holds then.
type Word = Option<(usize, u64)>;

pub(super) const ALL: &[Damage] = &[
    word("block size 0", Unsound, |_, _| Some((head::SIZE, 0))),
    word("block size above 2^40", Unsound, |_, random| {
        Some((head::SIZE, between(LARGEST_BLOCK + 1, u64::MAX, random)?))
    }),
    word("another block size", Only(Rule::LastEnd), |_, random| {
        Some((head::SIZE, between(1, LARGEST_BLOCK, random)?))
    }),
    word("wrong total", Only(Rule::Allocated), wrong_total),
    word("next id below 2", Unsound, |_, random| {
        Some((head::NEXT_ID, random.below(2)))
    }),
    word(
        "next id not above all",
        Only(Rule::IdsBelowNext),
        |table, random| {
            let largest = table.chunks.iter().map(|chunk| chunk.id).max()?;
            Some((head::NEXT_ID, between(2, largest, random)?))
        },
    ),
    word("later next id", Sound, |table, random| {
        Some((head::NEXT_ID, between(table.next_id, u64::MAX, random)?))
    }),
    word("first slot 0", Only(Rule::Walk), |_, _| {
        Some((head::FIRST_SLOT, 0))
    }),
    word(
        "first slot past the last",
        Only(Rule::Walk),
        |table, random| {
            Some((
                head::FIRST_SLOT,
                between(table.slots as u64 + 1, u64::MAX, random)?,
            ))
        },
    ),
    word("another first slot", Only(Rule::Walk), |table, random| {
        Some((head::FIRST_SLOT, between(1, table.slots as u64, random)?))
    }),
    word("id 0", Only(Rule::IdsFromOne), |table, random| {
        in_any(table, random, slot::ID, |_, _, _| Some(0))
    }),
    word("id twice", Only(Rule::IdsDistinct), |table, random| {
        in_any(table, random, slot::ID, |_, table, random| {
            Some(random.pick(&table.chunks).id)
        })
    }),
    word(
        "id at or above next id",
        Only(Rule::IdsBelowNext),
        |table, random| {
            in_any(table, random, slot::ID, |_, table, random| {
                between(table.next_id, u64::MAX, random)
            })
        },
    ),
    word("another id that is unused", Sound, unused_id),
    word("size 0", Unsound, |table, random| {
        in_any(table, random, slot::SIZE, |_, _, _| Some(0))
    }),
    word(
        "gap or overlap behind a free chunk",
        Only(Rule::Begins),
        |table, random| {
            let is_inner = |place, chunk: &Chunk| chunk.is_free() && place + 1 < table.chunks.len();
            let free = table.chunks[any_place(table, random, is_inner)?];
            Some((
                place(free.slot, slot::SIZE),
                near(free.size, random)?.max(1),
            ))
        },
    ),
    word(
        "gap or overlap behind a live chunk",
        Unsound,
        |table, random| {
            in_live(table, random, slot::SIZE, |chunk, _, random| {
                near(chunk.size, random)
            })
        },
    ),
    word("size that reaches past 2^64", Unsound, |table, random| {
        let chunk = any_chunk(table, random, |chunk| chunk.first > 0)?;
        let size = between(u64::MAX - chunk.first + 1, u64::MAX, random)?;
        Some((place(chunk.slot, slot::SIZE), size))
    }),
    word("gap or overlap before a chunk", Unsound, |table, random| {
        in_any(table, random, slot::FIRST, |chunk, _, random| {
            near(chunk.first, random)
        })
    }),
    word("first chunk not at 0", Unsound, |table, random| {
        let first = table.chunks.first()?;
        Some((
            place(first.slot, slot::FIRST),
            between(1, u64::MAX, random)?,
        ))
    }),
    word(
        "last chunk with another end, free",
        Only(Rule::LastEnd),
        |table, random| {
            let last = table.chunks.last().filter(|last| last.is_free())?;
            Some((
                place(last.slot, slot::SIZE),
                near(last.size, random)?.max(1),
            ))
        },
    ),
    word(
        "live chunk of kind 3 or above",
        Only(Rule::Kinds),
        |table, random| {
            in_live(table, random, slot::KIND, |_, _, random| {
                any_other_kind(random)
            })
        },
    ),
    word("free chunk of kind 3 or above", Unsound, |table, random| {
        in_free(table, random, slot::KIND, |_, _, random| {
            any_other_kind(random)
        })
    }),
    word("live chunk made free", Unsound, |table, random| {
        in_live(table, random, slot::KIND, |_, _, _| Some(0))
    }),
    word(
        "free chunk made live",
        Only(Rule::Allocated),
        |table, random| {
            in_free(table, random, slot::KIND, |_, _, random| {
                between(1, 2, random)
            })
        },
    ),
    word("the other live kind", Sound, |table, random| {
        in_live(table, random, slot::KIND, |chunk, _, _| {
            Some(3 - chunk.kind)
        })
    }),
    word(
        "label on a free chunk",
        Only(Rule::FreeLabels),
        |table, random| {
            in_free(table, random, slot::LABEL, |_, _, random| {
                between(1, u64::MAX, random)
            })
        },
    ),
    word("another label on a live chunk", Sound, |table, random| {
        in_live(table, random, slot::LABEL, |_, _, random| {
            between(0, u64::MAX, random)
        })
    }),
    word("wrong next", Only(Rule::Walk), |table, random| {
        in_any(table, random, slot::NEXT, |_, table, random| {
            any_link(table, random)
        })
    }),
    word("wrong previous", Only(Rule::Previous), |table, random| {
        in_any(table, random, slot::PREVIOUS, |_, table, random| {
            any_link(table, random)
        })
    }),
    word("loop", Only(Rule::Walk), |table, random| {
        let at = any_place(table, random, |_, _| true)?;
        let back = random.pick(&table.chunks[..=at]);
        Some((place(table.chunks[at].slot, slot::NEXT), back.slot))
    }),
    word(
        "chunk left out of the walk",
        Only(Rule::Walk),
        |table, random| {
            let before = any_place(table, random, |place, _| place + 1 < table.chunks.len())?;
            let after = table.chunks.get(before + 2).map_or(0, |chunk| chunk.slot);
            Some((place(table.chunks[before].slot, slot::NEXT), after))
        },
    ),
    word("id in an empty slot", Unsound, |table, random| {
        in_empty(table, random, slot::ID)
    }),
    word("size in an empty slot", Unsound, |table, random| {
        in_empty(table, random, slot::SIZE)
    }),
    word("first byte in an empty slot", Unsound, |table, random| {
        in_empty(table, random, slot::FIRST)
    }),
    word("kind in an empty slot", Unsound, |table, random| {
        in_empty(table, random, slot::KIND)
    }),
    word("label in an empty slot", Unsound, |table, random| {
        in_empty(table, random, slot::LABEL)
    }),
    word("next in an empty slot", Unsound, |table, random| {
        in_empty(table, random, slot::NEXT)
    }),
    word("previous in an empty slot", Unsound, |table, random| {
        in_empty(table, random, slot::PREVIOUS)
    }),
    word("any word", Any, |table, random| {
        Some((any_word(table, random), random.up_to_bits(64)))
    }),
    word("any bit", Any, |table, random| {
        let at = any_word(table, random);
        Some((at, table.words()[at] ^ 1 << random.below(64)))
    }),
    word("any word one up or down", Any, |table, random| {
        let at = any_word(table, random);
        Some((
            at,
            table.words()[at].wrapping_add(random.pick(&[1, u64::MAX])),
        ))
    }),
    word("any word copied to another place", Any, |table, random| {
        let from = any_word(table, random);
        Some((any_word(table, random), table.words()[from]))
    }),
];

const fn word(
    name: &'static str,
    leaves: Leaves,
    change: fn(&Table, &mut Random) -> Word,
) -> Damage {
    Damage::new(name, leaves, Change::Word(change))
}

/// What a word of a chunk becomes.
type Becomes = fn(&Chunk, &Table, &mut Random) -> Option<u64>;

/// A word of any chunk.
fn in_any(table: &Table, random: &mut Random, word: usize, becomes: Becomes) -> Word {
    let chunk = any_chunk(table, random, |_| true)?;
    Some((place(chunk.slot, word), becomes(&chunk, table, random)?))
}

/// A word of a live chunk.
fn in_live(table: &Table, random: &mut Random, word: usize, becomes: Becomes) -> Word {
    let chunk = any_chunk(table, random, |chunk| !chunk.is_free())?;
    Some((place(chunk.slot, word), becomes(&chunk, table, random)?))
}

/// A word of a free chunk.
fn in_free(table: &Table, random: &mut Random, word: usize, becomes: Becomes) -> Word {
    let chunk = any_chunk(table, random, Chunk::is_free)?;
    Some((place(chunk.slot, word), becomes(&chunk, table, random)?))
}

/// A word of an empty slot, which gets a number that might stand there in a used one.
fn in_empty(table: &Table, random: &mut Random, word: usize) -> Word {
    let empty = table.empty_slots();
    let number = (!empty.is_empty()).then(|| random.pick(&empty))?;
    let like = random.pick(&table.chunks);
    let used = table.words()[place(like.slot, word)];
    let other = between(1, u64::MAX, random)?;
    Some((place(number, word), random.pick(&[1, used, other])))
}

fn wrong_total(table: &Table, random: &mut Random) -> Word {
    let free = table.size - table.allocated;
    let close = near(table.allocated, random)?;
    let any = random.up_to_bits(64);
    Some((
        head::ALLOCATED,
        random.pick(&[0, free, table.size, close, any]),
    ))
}

fn unused_id(table: &Table, random: &mut Random) -> Word {
    let id = between(1, table.next_id - 1, random)?;
    let is_unused = table.chunks.iter().all(|chunk| chunk.id != id);
    let chunk = random.pick(&table.chunks);
    is_unused.then(|| (place(chunk.slot, slot::ID), id))
}

/// A kind that is none, some of them kinds in their low bits.
fn any_other_kind(random: &mut Random) -> Option<u64> {
    let high = 1 << between(2, 63, random)?;
    let any = between(3, u64::MAX, random)?;
    Some(random.pick(&[3, high, high + 1, high + 2, any]))
}

/// A number in a link: none, a slot, one past the last, or a slot in its low bits.
fn any_link(table: &Table, random: &mut Random) -> Option<u64> {
    let number = between(1, table.slots as u64, random)?;
    let past = between(table.slots as u64 + 1, u64::MAX, random)?;
    let bit = 1 << random.below(64);
    Some(random.pick(&[0, number, number, past, number ^ bit]))
}

/// A number above or below another, seldom far away.
fn near(number: u64, random: &mut Random) -> Option<u64> {
    let up = between(number, u64::MAX, random)?;
    let down = between(0, number, random)?;
    let little = 1 + random.below(8);
    let little_up = number.saturating_add(little);
    let little_down = number.saturating_sub(little);
    Some(random.pick(&[up, down, little_up, little_down]))
}

fn any_word(table: &Table, random: &mut Random) -> usize {
    let used = random.pick(&table.chunks).slot;
    let in_used = place(used, random.below(SLOT as u64) as usize);
    let anywhere = random.below(table.words().len() as u64) as usize;
    random.pick(&[in_used, anywhere])
}
