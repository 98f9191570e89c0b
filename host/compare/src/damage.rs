//! Ways to spoil a sound table, at least one for each rule and for each part of a table.

mod one_word;
mod several_words;
mod word_count;

use std::iter::Cycle;
use std::slice::Iter;

use crate::random::Random;
use crate::reading::Rule;
use crate::table::{Chunk, Table};

/// One way to spoil a table.
#[derive(Clone, Copy)]
pub struct Damage {
    /// What is spoilt.
    pub name: &'static str,
    /// What it makes of every table.
    pub leaves: Leaves,
    change: Change,
}

/// What a damage makes of a table.
#[derive(Clone, Copy, Debug, PartialEq, Eq)]
pub enum Leaves {
    /// Words that are no table.
    NotATable,
    /// A table that breaks this rule and no other.
    Only(Rule),
    /// A table that is not sound.
    Unsound,
    /// Another sound table.
    Sound,
    /// Any of these.
    Any,
}

/// How a damage is done. `None` where a table has no place for it.
#[derive(Clone, Copy)]
enum Change {
    /// The place of a word, and what it holds then.
    Word(fn(&Table, &mut Random) -> Option<(usize, u64)>),
    /// What the table says then.
    Parts(fn(Table, &mut Random) -> Option<Table>),
    /// What the words are then.
    Words(fn(&Table, Vec<u64>, &mut Random) -> Option<Vec<u64>>),
}

impl Damage {
    /// The damages that change one word.
    pub const ONE_WORD: &'static [Damage] = one_word::ALL;

    /// The damages that change several words.
    pub const SEVERAL_WORDS: &'static [Damage] = several_words::ALL;

    /// The damages that change how many words there are.
    pub const WORD_COUNT: &'static [Damage] = word_count::ALL;

    /// Every damage.
    pub fn all() -> impl Iterator<Item = &'static Damage> {
        let lists = [Self::ONE_WORD, Self::SEVERAL_WORDS, Self::WORD_COUNT];
        lists.into_iter().flatten()
    }

    const fn new(name: &'static str, leaves: Leaves, change: Change) -> Self {
        Self {
            name,
            leaves,
            change,
        }
    }

    /// The words of `table`, which is sound, with this damage; `None` where it has no place for it.
    pub fn spoil(&self, table: &Table, random: &mut Random) -> Option<Vec<u64>> {
        let words = table.words();
        let spoilt = match self.change {
            Change::Word(change) => {
                let (place, word) = change(table, random)?;
                let mut spoilt = words.clone();
                spoilt[place] = word;
                spoilt
            }
            Change::Parts(change) => change(table.clone(), random)?.words(),
            Change::Words(change) => change(table, words.clone(), random)?,
        };
        (spoilt != words).then_some(spoilt)
    }
}

/// Damages in turn, over and over.
pub struct Turns(Cycle<Iter<'static, Damage>>);

impl Turns {
    /// From the first of them on.
    pub fn of(damages: &'static [Damage]) -> Self {
        Self(damages.iter().cycle())
    }

    /// The words of a sound table with the next damage that it has a place for.
    pub fn spoil(&mut self, table: &Table, random: &mut Random) -> (&'static Damage, Vec<u64>) {
        let spoilt = |damage: &'static Damage| Some((damage, damage.spoil(table, random)?));
        self.0.find_map(spoilt).expect("any table can be damaged")
    }
}

/// The place in the list of any chunk that suits.
fn any_place(
    table: &Table,
    random: &mut Random,
    suits: impl Fn(usize, &Chunk) -> bool,
) -> Option<usize> {
    let chunks = table.chunks.iter().enumerate();
    let places: Vec<usize> = chunks
        .filter(|(place, chunk)| suits(*place, chunk))
        .map(|(place, _)| place)
        .collect();
    (!places.is_empty()).then(|| random.pick(&places))
}

/// Any chunk that suits.
fn any_chunk(table: &Table, random: &mut Random, suits: impl Fn(&Chunk) -> bool) -> Option<Chunk> {
    let place = any_place(table, random, |_, chunk| suits(chunk))?;
    Some(table.chunks[place])
}

/// Any number from `least` to `most`, if there is one; those near both ends as likely as all others.
fn between(least: u64, most: u64, random: &mut Random) -> Option<u64> {
    let width = most.checked_sub(least)?;
    let near = random.below(4).min(width);
    let far = random.word() % width.max(1);
    let scaled = random.up_to_bits(64).min(width);
    Some(least + random.pick(&[near, width - near, far, scaled]))
}
