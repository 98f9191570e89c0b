//! Counts of the tables that were compared, and of what they said.

use std::collections::BTreeMap;
use std::fmt;

use crate::reading::{Reading, Rule};
use crate::table::{slot_count, SLOT};

/// Counts by what was done to the tables, and in all.
#[derive(Default)]
pub struct Tally {
    /// By the name of what was done.
    pub done: BTreeMap<&'static str, Said>,
    /// By the rules that were broken.
    pub broken: BTreeMap<Vec<Rule>, u64>,
    /// By the number of slots, of those that have some.
    pub slots: BTreeMap<usize, u64>,
    /// By the remainder of the word count modulo 7.
    pub remainders: [u64; SLOT],
}

/// How many tables said what.
#[derive(Clone, Copy, Debug, Default, PartialEq, Eq)]
pub struct Said {
    /// Sound.
    pub sound: u64,
    /// Not sound.
    pub unsound: u64,
    /// No table.
    pub not_a_table: u64,
}

impl Said {
    /// All of them.
    pub fn tables(self) -> u64 {
        self.sound + self.unsound + self.not_a_table
    }

    fn add(&mut self, other: Self) {
        self.sound += other.sound;
        self.unsound += other.unsound;
        self.not_a_table += other.not_a_table;
    }
}

impl Tally {
    /// Counts one table.
    pub fn count(&mut self, done: &'static str, words: usize, reading: &Reading) {
        let said = self.done.entry(done).or_default();
        match reading {
            Reading::NotATable => said.not_a_table += 1,
            Reading::Unsound(_) => said.unsound += 1,
            Reading::Sound(_) => said.sound += 1,
        }
        if let Reading::Unsound(rules) = reading {
            *self.broken.entry(rules.clone()).or_default() += 1;
        }
        if let Some(slots) = slot_count(words) {
            *self.slots.entry(slots).or_default() += 1;
        }
        self.remainders[words % SLOT] += 1;
    }

    /// Adds the counts of another part.
    pub fn add(&mut self, other: Self) {
        for (done, said) in other.done {
            self.done.entry(done).or_default().add(said);
        }
        for (rules, count) in other.broken {
            *self.broken.entry(rules).or_default() += count;
        }
        for (slots, count) in other.slots {
            *self.slots.entry(slots).or_default() += count;
        }
        for (count, other) in self.remainders.iter_mut().zip(other.remainders) {
            *count += other;
        }
    }

    /// What was said in all.
    pub fn said(&self) -> Said {
        self.done.values().fold(Said::default(), |mut all, said| {
            all.add(*said);
            all
        })
    }

    /// How many tables said what after this was done.
    pub fn after(&self, done: &str) -> Said {
        self.done.get(done).copied().unwrap_or_default()
    }

    /// How many tables broke these rules and no others.
    pub fn broke(&self, rules: &[Rule]) -> u64 {
        self.broken.get(rules).copied().unwrap_or_default()
    }
}

impl fmt::Display for Tally {
    fn fmt(&self, f: &mut fmt::Formatter<'_>) -> fmt::Result {
        writeln!(f, "{:>9} {:>9} {:>9}", "sound", "unsound", "no table")?;
        let all = ("all", self.said());
        for (done, said) in self
            .done
            .iter()
            .map(|(done, said)| (*done, *said))
            .chain([all])
        {
            let Said {
                sound,
                unsound,
                not_a_table,
            } = said;
            writeln!(f, "{sound:>9} {unsound:>9} {not_a_table:>9} {done}")?;
        }
        for rule in Rule::ALL {
            writeln!(f, "{:>9} broke {rule:?} alone", self.broke(&[rule]))?;
        }
        Ok(())
    }
}
