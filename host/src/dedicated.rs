//! A block for one allocation.

use crate::block::{Allocation, Request};
use crate::ffi;
use crate::refusal::{accepted, Refusal};

/// A block that holds one allocation, which takes all of it.
///
/// It is a record of three words: its size, the bytes allocated, and the label. They are all that there
/// is of it, and may be stored and taken up again. So each call looks at the record, and refuses with
/// number 2 where it is not sound: where the size is 0, or neither nothing nor all is allocated. A
/// refused call changes no word.
///
/// ```
/// use lunkaseyo::{Allocation, Dedicated, Kind, Request};
///
/// let mut block = Dedicated::new(4096)?;
/// let all = Request { size: 4096, alignment: 64, kind: Kind::NonLinear, granularity: 1024, label: 7 };
/// assert_eq!(block.allocate(all)?, Allocation { offset: 0, id: 1 });
/// assert_eq!(block.allocated(), Ok(4096));
/// assert_eq!(block.allocate(all).unwrap_err().number(), 11);
///
/// // The words outlive the block, and can be taken up again.
/// let words = *block.as_words();
/// assert_eq!(words, [4096, 4096, 7]);
/// let mut again = Dedicated::from_words(words);
/// again.free(1)?;
/// assert_eq!(again.is_empty(), Ok(true));
/// assert_eq!(block.is_empty(), Ok(false));
///
/// // A part of a block is never allocated.
/// let odd = Dedicated::from_words([4096, 5, 7]);
/// assert_eq!(odd.allocated().unwrap_err().number(), 2);
/// # Ok::<(), lunkaseyo::Refusal>(())
/// ```
#[derive(Clone, Debug, PartialEq, Eq, Hash)]
pub struct Dedicated {
    words: ffi::Record,
}

/// What a dedicated block reports.
///
/// ```
/// use lunkaseyo::{Dedicated, Report};
///
/// let Report { first_byte, size, label } = Dedicated::new(4096)?.report_allocations()?;
/// assert_eq!((first_byte, size, label), (0, 4096, 0));
/// # Ok::<(), lunkaseyo::Refusal>(())
/// ```
#[derive(Clone, Copy, Debug, PartialEq, Eq, Hash)]
pub struct Report {
    /// Where in the block the allocation begins: at 0.
    pub first_byte: u64,
    /// How many bytes the block has.
    pub size: u64,
    /// The number in place of a name, 0 for none.
    pub label: u64,
}

impl Dedicated {
    /// A new block of `size` bytes, all of them free, with label 0. Refused with number 13 where the size
    /// is 0; any other will do.
    ///
    /// ```
    /// use lunkaseyo::Dedicated;
    ///
    /// assert_eq!(Dedicated::new(u64::MAX)?.as_words(), &[u64::MAX, 0, 0]);
    /// assert_eq!(Dedicated::new(0).unwrap_err().number(), 13);
    /// # Ok::<(), lunkaseyo::Refusal>(())
    /// ```
    pub fn new(size: u64) -> Result<Self, Refusal> {
        let mut words = ffi::Record::default();
        accepted(ffi::dedicated_new(&mut words, size)).map(|()| Self { words })
    }

    /// The block whose record `words` are, which nothing looks at before the first call.
    ///
    /// ```
    /// use lunkaseyo::{Dedicated, Refusal};
    ///
    /// assert_eq!(Dedicated::from_words([4096, 4096, 7]).allocated(), Ok(4096));
    /// assert_eq!(Dedicated::from_words([0; 3]).allocated(), Err(Refusal::Unsound));
    /// ```
    pub fn from_words(words: [u64; 3]) -> Self {
        Self { words }
    }

    /// Hands out the whole block: the offset is 0 and the id is 1. The alignment, the kind and the
    /// granularity change nothing, but have to be well-formed.
    ///
    /// Refused with 2, then with 3 where the size is 0, 4 and 5 where the alignment, then the granularity,
    /// is not a power of two, 11 where the block is occupied, and 12 where the size is not that of the
    /// block.
    ///
    /// ```
    /// use lunkaseyo::{Dedicated, Kind, Request};
    ///
    /// let mut block = Dedicated::new(4096)?;
    /// let all = Request { size: 4096, alignment: 1, kind: Kind::Linear, granularity: 1, label: 0 };
    /// let refused = |request, block: &mut Dedicated| block.allocate(request).unwrap_err().number();
    ///
    /// assert_eq!(refused(Request { size: 4095, ..all }, &mut block), 12);
    /// assert_eq!(refused(Request { alignment: 3, ..all }, &mut block), 4);
    /// block.allocate(all)?;
    /// assert_eq!(refused(Request { size: 4095, ..all }, &mut block), 11);
    /// # Ok::<(), lunkaseyo::Refusal>(())
    /// ```
    pub fn allocate(&mut self, request: Request) -> Result<Allocation, Refusal> {
        let (mut offset, mut id) = (0, 0);
        let number = ffi::dedicated_allocate(&mut self.words, request.into(), &mut offset, &mut id);
        accepted(number).map(|()| Allocation { offset, id })
    }

    /// Gives the block back, which keeps its label. It may be empty already.
    ///
    /// Refused with 2, then with 18 where the id is not 1.
    ///
    /// ```
    /// use lunkaseyo::{Dedicated, Refusal};
    ///
    /// let mut block = Dedicated::from_words([4096, 4096, 7]);
    /// assert_eq!(block.free(2), Err(Refusal::NotId1));
    /// assert_eq!(block.free(1), Ok(()));
    /// assert_eq!(block.as_words(), &[4096, 0, 7]);
    /// ```
    pub fn free(&mut self, id: u64) -> Result<(), Refusal> {
        accepted(ffi::dedicated_free(&mut self.words, id))
    }

    /// Gives the block another label, whether or not it is occupied.
    ///
    /// Refused with 2, then with 18 where the id is not 1.
    ///
    /// ```
    /// use lunkaseyo::{Dedicated, Refusal};
    ///
    /// let mut block = Dedicated::from_words([4096, 4096, 7]);
    /// assert_eq!(block.rename_allocation(0, 8), Err(Refusal::NotId1));
    /// assert_eq!(block.rename_allocation(1, 8), Ok(()));
    /// assert_eq!(block.as_words(), &[4096, 4096, 8]);
    /// ```
    pub fn rename_allocation(&mut self, id: u64, label: u64) -> Result<(), Refusal> {
        accepted(ffi::dedicated_rename_allocation(&mut self.words, id, label))
    }

    /// The bytes that are allocated: none, or all of the block. Refused with 2.
    ///
    /// ```
    /// let block = lunkaseyo::Dedicated::new(4096)?;
    /// assert_eq!(block.allocated(), Ok(0));
    /// # Ok::<(), lunkaseyo::Refusal>(())
    /// ```
    pub fn allocated(&self) -> Result<u64, Refusal> {
        let mut allocated = 0;
        accepted(ffi::dedicated_allocated(&self.words, &mut allocated)).map(|()| allocated)
    }

    /// Whether nothing is allocated. Refused with 2.
    ///
    /// ```
    /// let block = lunkaseyo::Dedicated::new(4096)?;
    /// assert_eq!(block.is_empty(), Ok(true));
    /// # Ok::<(), lunkaseyo::Refusal>(())
    /// ```
    pub fn is_empty(&self) -> Result<bool, Refusal> {
        let mut is_empty = 0;
        accepted(ffi::dedicated_is_empty(&self.words, &mut is_empty)).map(|()| is_empty != 0)
    }

    /// The one entry that there always is: all of the block, whether or not it is occupied, under the label
    /// that it was given last. Refused with 2.
    ///
    /// ```
    /// use lunkaseyo::{Dedicated, Report};
    ///
    /// let mut block = Dedicated::new(4096)?;
    /// block.rename_allocation(1, 7)?;
    /// block.free(1)?;
    /// let all = Report { first_byte: 0, size: 4096, label: 7 };
    /// assert_eq!(block.report_allocations(), Ok(all));
    /// # Ok::<(), lunkaseyo::Refusal>(())
    /// ```
    pub fn report_allocations(&self) -> Result<Report, Refusal> {
        let mut report = ffi::Report::default();
        let number = ffi::dedicated_report_allocations(&self.words, &mut report);
        accepted(number).map(|()| report.into())
    }

    /// The record's words: size, bytes allocated, label.
    ///
    /// ```
    /// let block = lunkaseyo::Dedicated::new(4096)?;
    /// assert_eq!(block.as_words(), &[4096, 0, 0]);
    /// # Ok::<(), lunkaseyo::Refusal>(())
    /// ```
    pub fn as_words(&self) -> &[u64; 3] {
        &self.words
    }
}

impl From<ffi::Report> for Report {
    fn from([first_byte, size, label]: ffi::Report) -> Self {
        Self {
            first_byte,
            size,
            label,
        }
    }
}
