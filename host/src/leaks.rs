//! The memory that a block has handed out and not got back.

use std::iter::FusedIterator;

use crate::block::{Block, Kind};
use crate::ffi;
use crate::refusal::{accepted, Refusal};

/// Memory that a block has handed out, as its table has it: with the padding before its offset.
///
/// ```
/// use lunkaseyo::{Block, Kind, Leak, Request};
///
/// let mut words = [0; Block::words(1)];
/// let mut block = Block::new(&mut words, 64)?;
/// block.allocate(Request { size: 64, alignment: 1, kind: Kind::Linear, granularity: 1, label: 7 })?;
/// let all = Leak { id: 1, first_byte: 0, size: 64, kind: Kind::Linear, label: 7 };
/// assert_eq!(block.leaks()?.next(), Some(all));
/// # Ok::<(), lunkaseyo::Refusal>(())
/// ```
#[derive(Clone, Copy, Debug, PartialEq, Eq, Hash)]
pub struct Leak {
    /// What it is named by when it is renamed or given back.
    pub id: u64,
    /// Where in the block it begins, padding included.
    pub first_byte: u64,
    /// How many bytes it has, padding included.
    pub size: u64,
    /// What it is for.
    pub kind: Kind,
    /// The number in place of a name, 0 for none.
    pub label: u64,
}

/// A walk along the memory that a block has handed out, by rising address. [`Block::leaks`] starts it.
///
/// Each step looks at the whole table, as every call on a block does.
///
/// ```
/// use lunkaseyo::{Block, Leaks};
///
/// let mut words = [0; Block::words(8)];
/// let block = Block::new(&mut words, 4096)?;
/// let walk: Leaks = block.leaks()?;
/// assert_eq!(walk.count(), 0, "nothing is handed out yet");
/// # Ok::<(), lunkaseyo::Refusal>(())
/// ```
// The items are plain leaks, and no `Result`s. The words are borrowed for as long as the walk is there,
// so nobody can write them, and a step asks of them what the start has found: it is never refused.
#[derive(Clone, Debug)]
pub struct Leaks<'a> {
    words: &'a [u64],
    place: u64,
}

impl Block<'_> {
    /// Walks along the memory that is handed out and was not given back, by rising address.
    ///
    /// Refused with 1 and 2. Where the start is accepted no step is refused: the table cannot change
    /// while it is walked along.
    ///
    /// ```
    /// use lunkaseyo::{Block, Kind, Leak, Request};
    ///
    /// let mut words = [0; Block::words(8)];
    /// let mut block = Block::new(&mut words, 4096)?;
    /// let buffer = Request { size: 100, alignment: 1, kind: Kind::Linear, granularity: 1024, label: 7 };
    /// let image = Request { size: 256, alignment: 64, kind: Kind::NonLinear, label: 8, ..buffer };
    /// block.allocate(buffer)?;
    /// // At offset 1024, on a page of its own, behind 924 bytes of padding.
    /// block.allocate(image)?;
    ///
    /// let mut leaks = block.leaks()?;
    /// let first = Leak { id: 2, first_byte: 0, size: 100, kind: Kind::Linear, label: 7 };
    /// let second = Leak { id: 3, first_byte: 100, size: 1180, kind: Kind::NonLinear, label: 8 };
    /// assert_eq!(leaks.next(), Some(first));
    /// assert_eq!(leaks.next(), Some(second));
    /// assert_eq!(leaks.next(), None);
    ///
    /// let allocated: u64 = block.leaks()?.map(|leak| leak.size).sum();
    /// assert_eq!(block.allocated(), Ok(allocated));
    ///
    /// words[1] = 5;
    /// assert_eq!(Block::over(&mut words).leaks().unwrap_err().number(), 2);
    /// # Ok::<(), lunkaseyo::Refusal>(())
    /// ```
    pub fn leaks(&self) -> Result<Leaks<'_>, Refusal> {
        let words = self.as_words();
        let mut place = 0;
        accepted(ffi::leaks_start(words, &mut place)).map(|()| Leaks { words, place })
    }
}

impl Iterator for Leaks<'_> {
    type Item = Leak;

    fn next(&mut self) -> Option<Leak> {
        let mut leak = ffi::Leak::default();
        let number = ffi::leaks_step(self.words, &mut self.place, &mut leak);
        accepted(number).expect("the start looked at these words, and they are borrowed since");
        let [id, first_byte, size, kind, label] = leak;
        // no live chunk has id 0: that is the end
        (id != 0).then(|| Leak {
            id,
            first_byte,
            size,
            kind: Kind::of(kind).expect("a live chunk is of one of the two kinds"),
            label,
        })
    }
}

/// The place stays where it is at the end, so the end comes again.
impl FusedIterator for Leaks<'_> {}
