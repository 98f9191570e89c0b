//! Damages of several words: most break one rule and repair all that depends on it.

use super::Leaves::{self, Any, Only, Unsound};
use super::{any_place, between, Change, Damage};
use crate::random::Random;
use crate::reading::Rule;
use crate::table::{head, place, slot, slot_words, Chunk, Table, LARGEST_BLOCK};

pub(super) const ALL: &[Damage] = &[
    parts("gap", Only(Rule::Begins), |mut table, random| {
        let before_last = |place, chunk: &Chunk| chunk.size > 1 && place + 1 < table.chunks.len();
        let at = any_place(&table, random, before_last)?;
        table.chunks[at].size = between(1, table.chunks[at].size - 1, random)?;
        Some(retotalled(table))
    }),
    parts("overlap", Only(Rule::Begins), |mut table, random| {
        let at = any_place(&table, random, |place, _| place + 1 < table.chunks.len())?;
        table.chunks[at].size = between(table.chunks[at].size + 1, 1 << 63, random)?;
        Some(retotalled(table))
    }),
    parts(
        "first chunk not at 0, nor longer",
        Only(Rule::FirstByte),
        |mut table, random| {
            let first = table.chunks.first_mut()?;
            first.first = between(1, first.size - 1, random)?;
            first.size -= first.first;
            Some(retotalled(table))
        },
    ),
    parts(
        "all chunks further on",
        Only(Rule::FirstByte),
        |mut table, random| {
            let further = between(1, LARGEST_BLOCK - table.size, random)?;
            for chunk in &mut table.chunks {
                chunk.first += further;
            }
            table.size += further;
            Some(table)
        },
    ),
    parts(
        "last chunk with another end",
        Only(Rule::LastEnd),
        |mut table, random| {
            table.chunks.last_mut()?.size = between(1, LARGEST_BLOCK, random)?;
            Some(retotalled(table))
        },
    ),
    parts(
        "block above 2^40, filled",
        Only(Rule::BlockSize),
        |mut table, random| {
            let more = between(LARGEST_BLOCK + 1, 1 << 63, random)? - table.size;
            table.chunks.last_mut()?.size += more;
            table.size += more;
            Some(retotalled(table))
        },
    ),
    parts(
        "size 0, its bytes before it",
        Only(Rule::Sizes),
        |mut table, random| {
            let at = any_place(&table, random, |place, _| place > 0)?;
            let size = take_size(&mut table.chunks[at]);
            table.chunks[at].first += size;
            table.chunks[at - 1].size += size;
            Some(retotalled(table))
        },
    ),
    parts(
        "size 0, its bytes behind it",
        Only(Rule::Sizes),
        |mut table, random| {
            let at = any_place(&table, random, |place, _| place + 1 < table.chunks.len())?;
            let size = take_size(&mut table.chunks[at]);
            table.chunks[at + 1].first -= size;
            table.chunks[at + 1].size += size;
            Some(retotalled(table))
        },
    ),
    parts(
        "live chunk of size 0 put between",
        Only(Rule::Sizes),
        |table, random| {
            let at = any_place(&table, random, |_, _| true)?;
            let kind = between(1, 2, random)?;
            let chunk = table.chunks[at];
            let empty = Chunk {
                size: 0,
                kind,
                ..chunk
            };
            insert_before(table, at, empty)
        },
    ),
    parts(
        "live chunk made free beside another",
        Only(Rule::FreeNeighbours),
        |mut table, random| {
            let is_free = |place| table.chunks.get(place).map_or(false, Chunk::is_free);
            let beside = |place: usize, chunk: &Chunk| {
                !chunk.is_free() && (is_free(place + 1) || is_free(place.wrapping_sub(1)))
            };
            let at = any_place(&table, random, beside)?;
            table.chunks[at].kind = 0;
            table.chunks[at].label = 0;
            Some(retotalled(table))
        },
    ),
    parts(
        "free chunk cut in two",
        Only(Rule::FreeNeighbours),
        |mut table, random| {
            let at = any_place(&table, random, |_, chunk| chunk.is_free() && chunk.size > 1)?;
            let whole = table.chunks[at];
            let size = between(1, whole.size - 1, random)?;
            table.chunks[at].first += size;
            table.chunks[at].size -= size;
            insert_before(table, at, Chunk { size, ..whole })
        },
    ),
    parts("no chunk", Unsound, |mut table, _| {
        table.chunks.clear();
        Some(retotalled(table))
    }),
    parts("sizes that sum past 2^64", Unsound, past_2_64),
    parts("linked in another order", Unsound, |mut table, random| {
        let one = any_place(&table, random, |_, _| true)?;
        let other = any_place(&table, random, |place, _| place != one)?;
        table.chunks.swap(one, other);
        Some(table)
    }),
    words("ring", Unsound, |table, mut words, _| {
        let (first, last) = (table.chunks.first()?.slot, table.chunks.last()?.slot);
        words[place(first, slot::PREVIOUS)] = last;
        words[place(last, slot::NEXT)] = first;
        Some(words)
    }),
    words("merged chunk left in its slot", Unsound, merged_and_left),
    words("chunk copied to an empty slot", Unsound, copied),
    words(
        "two words in each other's place",
        Any,
        |_, mut words, random| {
            let [one, other] = [(); 2].map(|()| random.below(words.len() as u64) as usize);
            words.swap(one, other);
            Some(words)
        },
    ),
    words("two to five words", Any, |_, mut words, random| {
        for _ in 0..2 + random.below(4) {
            let at = random.below(words.len() as u64) as usize;
            let (small, any) = (random.below(4), random.up_to_bits(64));
            words[at] = random.pick(&[small, any]);
        }
        Some(words)
    }),
    words("two to five bits", Any, |_, mut words, random| {
        for _ in 0..2 + random.below(4) {
            let at = random.below(words.len() as u64) as usize;
            words[at] ^= 1 << random.below(64);
        }
        Some(words)
    }),
    words(
        "two damages of one word",
        Any,
        |table, mut words, random| {
            for _ in 0..2 {
                let Change::Word(change) = random.pick(Damage::ONE_WORD).change else {
                    continue;
                };
                let (place, word) = change(table, random)?;
                words[place] = word;
            }
            Some(words)
        },
    ),
    words("all words small", Any, |table, mut words, random| {
        words.fill_with(|| random.below(table.slots as u64 + 2));
        Some(words)
    }),
    words("all words alike", Unsound, |_, mut words, random| {
        let any = random.up_to_bits(64);
        words.fill(random.pick(&[0, 1, 2, any]));
        Some(words)
    }),
];

const fn parts(
    name: &'static str,
    leaves: Leaves,
    change: fn(Table, &mut Random) -> Option<Table>,
) -> Damage {
    Damage::new(name, leaves, Change::Parts(change))
}

const fn words(
    name: &'static str,
    leaves: Leaves,
    change: fn(&Table, Vec<u64>, &mut Random) -> Option<Vec<u64>>,
) -> Damage {
    Damage::new(name, leaves, Change::Words(change))
}

/// The table with the total of its live sizes, modulo 2^64.
fn retotalled(mut table: Table) -> Table {
    let live = table.chunks.iter().filter(|chunk| !chunk.is_free());
    table.allocated = live.fold(0, |total, chunk| total.wrapping_add(chunk.size));
    table
}

fn take_size(chunk: &mut Chunk) -> u64 {
    std::mem::take(&mut chunk.size)
}

/// Puts a chunk before another, in the lowest empty slot and under the next id, if there are any.
fn insert_before(mut table: Table, at: usize, chunk: Chunk) -> Option<Table> {
    let slot = *table.empty_slots().first()?;
    let id = table.next_id;
    table.next_id = id.checked_add(1)?;
    table.chunks.insert(at, Chunk { slot, id, ..chunk });
    Some(table)
}

/// One chunk is larger and a later one smaller, and all between them are further on: modulo 2^64
/// every sum comes out right.
fn past_2_64(mut table: Table, random: &mut Random) -> Option<Table> {
    let larger = any_place(&table, random, |place, _| place + 1 < table.chunks.len())?;
    let smaller = any_place(&table, random, |place, _| place > larger)?;
    let by = between(table.size + 1, u64::MAX - table.size, random)?;
    table.chunks[larger].size = table.chunks[larger].size.wrapping_add(by);
    table.chunks[smaller].size = table.chunks[smaller].size.wrapping_sub(by);
    for chunk in &mut table.chunks[larger + 1..=smaller] {
        chunk.first = chunk.first.wrapping_add(by);
    }
    Some(retotalled(table))
}

/// A chunk is merged into the one before it as if both were free, and its slot is not emptied: all
/// along the walk is well, and the walk does not come there.
fn merged_and_left(table: &Table, words: Vec<u64>, random: &mut Random) -> Option<Vec<u64>> {
    let at = any_place(table, random, |place, _| place > 0)?;
    let mut merged = table.clone();
    let gone = merged.chunks.remove(at);
    merged.chunks[at - 1].size += gone.size;
    let mut merged = retotalled(merged).words();
    merged[slot_words(gone.slot)].copy_from_slice(&words[slot_words(gone.slot)]);
    Some(merged)
}

/// An empty slot gets the words of a used one, under an id of its own.
fn copied(table: &Table, mut words: Vec<u64>, random: &mut Random) -> Option<Vec<u64>> {
    let empty = *table.empty_slots().first()?;
    let from = random.pick(&table.chunks).slot;
    words.copy_within(slot_words(from), slot_words(empty).start);
    words[place(empty, slot::ID)] = table.next_id;
    words[head::NEXT_ID] = table.next_id.checked_add(1)?;
    Some(words)
}
