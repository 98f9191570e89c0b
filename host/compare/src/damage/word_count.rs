//! Damages of the number of words.

use super::Leaves::{self, Any, NotATable, Sound};
use super::{Change, Damage};
use crate::random::Random;
use crate::table::{word_count, Table, HEAD, MOST_SLOTS, SLOT};

pub(super) const ALL: &[Damage] = &[
    count("1 to 6 words less", NotATable, |_, mut words, random| {
        words.truncate(words.len() - 1 - random.below(6) as usize);
        Some(words)
    }),
    count("1 to 6 words more", NotATable, |_, mut words, random| {
        words.resize(words.len() + 1 + random.below(6) as usize, 0);
        Some(words)
    }),
    count("a head or less", NotATable, |_, mut words, random| {
        words.truncate(random.below(HEAD as u64 + 1) as usize);
        Some(words)
    }),
    count("513 slots", NotATable, |_, mut words, _| {
        words.resize(word_count(MOST_SLOTS + 1), 0);
        Some(words)
    }),
    count("more than 512 slots", NotATable, |_, mut words, random| {
        words.resize(word_count(MOST_SLOTS) + 1 + random.below(1000) as usize, 0);
        Some(words)
    }),
    count("one slot more, empty", Sound, |table, mut words, _| {
        words.resize(words.len() + SLOT, 0);
        (table.slots < MOST_SLOTS).then_some(words)
    }),
    count("one slot less", Any, |table, mut words, _| {
        words.truncate(words.len() - SLOT);
        (table.slots > 1).then_some(words)
    }),
];

const fn count(
    name: &'static str,
    leaves: Leaves,
    change: fn(&Table, Vec<u64>, &mut Random) -> Option<Vec<u64>>,
) -> Damage {
    Damage::new(name, leaves, Change::Words(change))
}
