//! A free-list block over lent words.

use crate::ffi;
use crate::refusal::{accepted, Refusal};

/// A free-list block, kept as a table of its chunks in words that the caller lends.
///
/// A table has 4 + 7s words for s slots, 1 to 512, and a chunk takes one slot. The words are all that
/// there is of a block: they may be copied, stored, and lent again. So each call looks at the whole
/// table, and refuses with number 1 where the number of words is not that of a table, then with
/// number 2 where the table is not sound. A refused call changes no word.
///
/// ```
/// use lunkaseyo::{Allocation, Block, Kind, Request};
///
/// let mut words = [0; Block::words(8)];
/// let mut block = Block::new(&mut words, 4096)?;
///
/// // A buffer, and an image that may not share a page of 1024 bytes with it.
/// let buffer = Request {
///     size: 100,
///     alignment: 1,
///     kind: Kind::Linear,
///     granularity: 1024,
///     label: 7,
/// };
/// let image = Request { size: 256, alignment: 64, kind: Kind::NonLinear, ..buffer };
/// assert_eq!(block.allocate(buffer)?, Allocation { offset: 0, id: 2 });
/// assert_eq!(block.allocate(image)?, Allocation { offset: 1024, id: 3 });
/// assert_eq!(block.allocated(), Ok(1280));
///
/// block.free(2)?;
/// assert_eq!(block.free(2).unwrap_err().number(), 10);
///
/// // The words outlive the block, and can be taken up again.
/// let mut copy = words;
/// Block::over(&mut copy).free(3)?;
/// assert_eq!(Block::over(&mut copy).is_empty(), Ok(true));
/// assert_eq!(Block::over(&mut words).allocated(), Ok(1180));
///
/// // This head says that 5 bytes are allocated, and the chunks do not.
/// words[1] = 5;
/// assert_eq!(Block::over(&mut words).allocated().unwrap_err().number(), 2);
/// # Ok::<(), lunkaseyo::Refusal>(())
/// ```
#[derive(Debug)]
pub struct Block<'a> {
    words: &'a mut [u64],
}

/// What a block is asked for.
///
/// ```
/// use lunkaseyo::{Kind, Request};
///
/// let buffer = Request { size: 100, alignment: 1, kind: Kind::Linear, granularity: 1024, label: 7 };
/// // What is not said is as in the buffer's.
/// let image = Request { kind: Kind::NonLinear, alignment: 64, ..buffer };
/// assert_eq!((image.size, image.granularity), (100, 1024));
/// ```
#[derive(Clone, Copy, Debug, PartialEq, Eq, Hash)]
pub struct Request {
    /// How many bytes.
    pub size: u64,
    /// What the offset is to be a multiple of, a power of two.
    pub alignment: u64,
    /// What the bytes are for.
    pub kind: Kind,
    /// The size of a page, a power of two. The two kinds do not share one.
    pub granularity: u64,
    /// A number in place of a name, 0 for none.
    pub label: u64,
}

/// What memory is for. At the boundary a kind is a number, and any but these two is refused with 6.
///
/// ```
/// use lunkaseyo::Kind;
///
/// assert_eq!([Kind::Linear as u64, Kind::NonLinear as u64], [1, 2]);
/// ```
#[derive(Clone, Copy, Debug, PartialEq, Eq, Hash)]
#[repr(u64)]
pub enum Kind {
    /// Buffers, and images that are laid out linearly.
    Linear = 1,
    /// All other images.
    NonLinear = 2,
}

impl Kind {
    /// The kind that a number stands for.
    pub(crate) fn of(number: u64) -> Option<Self> {
        let kinds = [Self::Linear, Self::NonLinear];
        kinds.into_iter().find(|&kind| kind as u64 == number)
    }
}

/// Memory that a block has handed out.
///
/// ```
/// use lunkaseyo::{Allocation, Block, Kind, Request};
///
/// let mut words = [0; Block::words(2)];
/// let mut block = Block::new(&mut words, 4096)?;
/// let byte = Request { size: 1, alignment: 1, kind: Kind::Linear, granularity: 1, label: 0 };
/// let Allocation { offset, id } = block.allocate(byte)?;
/// assert_eq!((offset, id), (0, 2));
/// # Ok::<(), lunkaseyo::Refusal>(())
/// ```
#[derive(Clone, Copy, Debug, PartialEq, Eq, Hash)]
pub struct Allocation {
    /// Where in the block its bytes begin.
    pub offset: u64,
    /// What it is named by when it is renamed or given back. A later allocation may have the same.
    pub id: u64,
}

impl<'a> Block<'a> {
    /// How many words a table of `slots` slots has.
    ///
    /// ```
    /// assert_eq!(lunkaseyo::Block::words(512), 3588);
    /// ```
    pub const fn words(slots: usize) -> usize {
        slots.saturating_mul(7).saturating_add(4)
    }

    /// A new block of `size` bytes, all of them free. Every word is written, whatever it held.
    ///
    /// Refused with number 1, then with number 13 where the size is 0 or above 2^40.
    ///
    /// ```
    /// use lunkaseyo::Block;
    ///
    /// let mut words = [7; Block::words(1)];
    /// assert_eq!(Block::new(&mut words, 0).unwrap_err().number(), 13);
    /// assert_eq!(words, [7; 11]);
    /// assert!(Block::new(&mut words, 1 << 40).is_ok());
    /// assert_eq!(Block::new(&mut [], 4096).unwrap_err().number(), 1);
    /// ```
    pub fn new(words: &'a mut [u64], size: u64) -> Result<Self, Refusal> {
        accepted(ffi::block_new(words, size)).map(|()| Self { words })
    }

    /// The block whose table `words` are, which nothing looks at before the first call.
    ///
    /// ```
    /// use lunkaseyo::{Block, Refusal};
    ///
    /// let mut words = [0; Block::words(1)];
    /// Block::new(&mut words, 4096)?;
    /// assert_eq!(Block::over(&mut words).is_empty(), Ok(true));
    /// assert_eq!(Block::over(&mut words[..10]).is_empty(), Err(Refusal::WordCount));
    /// # Ok::<(), Refusal>(())
    /// ```
    pub fn over(words: &'a mut [u64]) -> Self {
        Self { words }
    }

    /// Hands out memory: in the smallest free chunk that holds the request, of several the one at the
    /// lowest address, at the lowest offset that the alignment and the page rule allow.
    ///
    /// Refused with 1 and 2, then with 3 where the size is 0, 4 and 5 where the alignment, then the
    /// granularity, is not a power of two, and 7 where no free chunk holds the request. A chunk that is
    /// larger is split: that is refused with 8 where no id is left, then with 9 where no slot is empty.
    ///
    /// ```
    /// use lunkaseyo::{Allocation, Block, Kind, Request};
    ///
    /// let mut words = [0; Block::words(1)];
    /// let mut block = Block::new(&mut words, 4096)?;
    /// let all = Request { size: 4096, alignment: 1, kind: Kind::Linear, granularity: 1, label: 0 };
    /// let refused = |request, block: &mut Block| block.allocate(request).unwrap_err().number();
    ///
    /// assert_eq!(refused(Request { size: 4097, ..all }, &mut block), 7);
    /// // One slot is enough for the whole block, and not for a part of it.
    /// assert_eq!(refused(Request { size: 1, ..all }, &mut block), 9);
    /// assert_eq!(block.allocate(all)?, Allocation { offset: 0, id: 1 });
    /// assert_eq!(refused(Request { alignment: 3, ..all }, &mut block), 4);
    /// # Ok::<(), lunkaseyo::Refusal>(())
    /// ```
    pub fn allocate(&mut self, request: Request) -> Result<Allocation, Refusal> {
        let (mut offset, mut id) = (0, 0);
        let number = ffi::block_allocate(self.words, request.into(), &mut offset, &mut id);
        accepted(number).map(|()| Allocation { offset, id })
    }

    /// Gives back the memory with this id. Free neighbours become one chunk.
    ///
    /// Refused with 1 and 2, then with 10 where no memory that is handed out has this id.
    ///
    /// ```
    /// use lunkaseyo::{Block, Kind, Refusal, Request};
    ///
    /// let mut words = [0; Block::words(2)];
    /// let mut block = Block::new(&mut words, 4096)?;
    /// let byte = Request { size: 1, alignment: 1, kind: Kind::Linear, granularity: 1, label: 0 };
    /// let id = block.allocate(byte)?.id;
    /// assert_eq!(block.free(id), Ok(()));
    /// assert_eq!(block.free(id), Err(Refusal::UnknownId));
    /// # Ok::<(), Refusal>(())
    /// ```
    pub fn free(&mut self, id: u64) -> Result<(), Refusal> {
        accepted(ffi::block_free(self.words, id))
    }

    /// Gives the memory with this id another label.
    ///
    /// Refused with 1 and 2, then with 10 where no memory that is handed out has this id.
    ///
    /// ```
    /// use lunkaseyo::{Block, Kind, Request};
    ///
    /// let mut words = [0; Block::words(1)];
    /// let mut block = Block::new(&mut words, 256)?;
    /// let all = Request { size: 256, alignment: 1, kind: Kind::NonLinear, granularity: 1, label: 7 };
    /// let id = block.allocate(all)?.id;
    /// block.rename_allocation(id, 8)?;
    /// // the fifth word of the first slot
    /// assert_eq!(block.as_words()[8], 8);
    ///
    /// block.free(id)?;
    /// assert_eq!(block.rename_allocation(id, 9).unwrap_err().number(), 10);
    /// # Ok::<(), lunkaseyo::Refusal>(())
    /// ```
    pub fn rename_allocation(&mut self, id: u64, label: u64) -> Result<(), Refusal> {
        accepted(ffi::block_rename_allocation(self.words, id, label))
    }

    /// The bytes that are allocated, padding included. Refused with 1 and 2.
    ///
    /// ```
    /// use lunkaseyo::{Block, Kind, Request};
    ///
    /// let mut words = [0; Block::words(3)];
    /// let mut block = Block::new(&mut words, 4096)?;
    /// let aligned = Request { size: 1, alignment: 16, kind: Kind::Linear, granularity: 1, label: 0 };
    /// block.allocate(aligned)?;
    /// block.allocate(aligned)?;
    /// // 15 bytes between the two
    /// assert_eq!(block.allocated(), Ok(17));
    /// # Ok::<(), lunkaseyo::Refusal>(())
    /// ```
    pub fn allocated(&self) -> Result<u64, Refusal> {
        let mut allocated = 0;
        accepted(ffi::block_allocated(self.words, &mut allocated)).map(|()| allocated)
    }

    /// Whether nothing is allocated. Refused with 1 and 2.
    ///
    /// ```
    /// use lunkaseyo::{Block, Kind, Request};
    ///
    /// let mut words = [0; Block::words(2)];
    /// let mut block = Block::new(&mut words, 4096)?;
    /// assert_eq!(block.is_empty(), Ok(true));
    /// let byte = Request { size: 1, alignment: 1, kind: Kind::Linear, granularity: 1, label: 0 };
    /// block.allocate(byte)?;
    /// assert_eq!(block.is_empty(), Ok(false));
    /// # Ok::<(), lunkaseyo::Refusal>(())
    /// ```
    pub fn is_empty(&self) -> Result<bool, Refusal> {
        let mut is_empty = 0;
        accepted(ffi::block_is_empty(self.words, &mut is_empty)).map(|()| is_empty != 0)
    }

    /// The table's words.
    ///
    /// ```
    /// use lunkaseyo::Block;
    ///
    /// let mut words = [7; Block::words(1)];
    /// let block = Block::new(&mut words, 4096)?;
    /// // the head, and a slot with the one free chunk
    /// assert_eq!(block.as_words(), [4096, 0, 2, 1, 1, 4096, 0, 0, 0, 0, 0]);
    /// # Ok::<(), lunkaseyo::Refusal>(())
    /// ```
    pub fn as_words(&self) -> &[u64] {
        self.words
    }
}

impl From<Request> for ffi::Request {
    fn from(request: Request) -> Self {
        [
            request.size,
            request.alignment,
            request.kind as u64,
            request.granularity,
            request.label,
        ]
    }
}
