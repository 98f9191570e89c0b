//! How often things came up.

use std::collections::BTreeMap;
use std::fmt::{self, Debug};

/// A count for each thing that came up.
pub struct Counts<K>(BTreeMap<K, u64>);

impl<K: Ord + Debug> Counts<K> {
    /// Counts one more.
    pub fn count(&mut self, key: K) {
        *self.0.entry(key).or_default() += 1;
    }

    /// Adds the counts of another part.
    pub fn add(&mut self, other: Self) {
        for (key, count) in other.0 {
            *self.0.entry(key).or_default() += count;
        }
    }

    /// How often it came up.
    pub fn of(&self, key: &K) -> u64 {
        self.0.get(key).copied().unwrap_or_default()
    }

    /// Fails unless each of these came up at least so often.
    pub fn assert_each(&self, keys: impl IntoIterator<Item = K>, least: u64) {
        for key in keys {
            let count = self.of(&key);
            assert!(count >= least, "{key:?} came up {count} times");
        }
    }
}

impl<K> Default for Counts<K> {
    fn default() -> Self {
        Self(BTreeMap::new())
    }
}

impl<K: Debug> Debug for Counts<K> {
    fn fmt(&self, f: &mut fmt::Formatter<'_>) -> fmt::Result {
        self.0.fmt(f)
    }
}
