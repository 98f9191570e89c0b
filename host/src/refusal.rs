//! Why a call was refused.

use std::error::Error;
use std::fmt;

/// A call was refused, and changed nothing. Each number has one meaning, whichever call gives it.
///
/// ```
/// use lunkaseyo::{byte_text, Refusal};
///
/// let refusal = byte_text(1 << 50).unwrap_err();
/// assert_eq!(refusal, Refusal::Amount);
/// assert_eq!(refusal.number(), 15);
/// assert_eq!(refusal.to_string(), "refusal 15: the amount is 2^50 bytes or more");
/// ```
#[derive(Clone, Copy, Debug, PartialEq, Eq, Hash)]
#[repr(u64)]
pub enum Refusal {
    /// The words are too few or too many for a table.
    WordCount = 1,
    /// The table, or the record of a dedicated block, breaks a rule.
    Unsound = 2,
    /// Nothing was asked for.
    ZeroSize = 3,
    /// The alignment has not exactly one bit set.
    Alignment = 4,
    /// The granularity has not exactly one bit set.
    Granularity = 5,
    /// The kind is none. A [`Kind`](crate::Kind) is never refused so, a number at the boundary is.
    Kind = 6,
    /// The block has no room for the request.
    NoRoom = 7,
    /// The block has given every id.
    NoId = 8,
    /// The table has no room for another chunk.
    NoSlot = 9,
    /// The block has handed out nothing under this id.
    UnknownId = 10,
    /// The dedicated block is handed out already.
    Occupied = 11,
    /// The dedicated block is larger or smaller than what was asked for.
    OtherSize = 12,
    /// A block cannot have this size.
    BlockSize = 13,
    /// Sizes of blocks that are outside the rules.
    Sizes = 14,
    /// The amount is too large for a text.
    Amount = 15,
    /// The buffer is too short for the text.
    ShortBuffer = 16,
    /// The id is not the one of a dedicated block.
    NotId1 = 18,
}

impl Refusal {
    /// All of them, by rising number.
    ///
    /// ```
    /// for refusal in lunkaseyo::Refusal::ALL {
    ///     println!("{refusal}");
    /// }
    /// ```
    pub const ALL: [Self; 17] = [
        Self::WordCount,
        Self::Unsound,
        Self::ZeroSize,
        Self::Alignment,
        Self::Granularity,
        Self::Kind,
        Self::NoRoom,
        Self::NoId,
        Self::NoSlot,
        Self::UnknownId,
        Self::Occupied,
        Self::OtherSize,
        Self::BlockSize,
        Self::Sizes,
        Self::Amount,
        Self::ShortBuffer,
        Self::NotId1,
    ];

    /// The refusal's number: 1 to 16, or 18.
    ///
    /// ```
    /// assert_eq!(lunkaseyo::Refusal::NotId1.number(), 18);
    /// ```
    pub const fn number(self) -> u64 {
        self as u64
    }

    /// The refusal with this number, for those who call [`ffi`](crate::ffi).
    ///
    /// ```
    /// use lunkaseyo::Refusal;
    ///
    /// assert_eq!(Refusal::of(7), Some(Refusal::NoRoom));
    /// assert_eq!(Refusal::of(17), None);
    /// ```
    pub fn of(number: u64) -> Option<Self> {
        let mut all = Self::ALL.into_iter();
        all.find(|refusal| refusal.number() == number)
    }

    fn reason(self) -> &'static str {
        match self {
            Self::WordCount => "the number of words is not 4 + 7s for any s from 1 to 512 slots",
            Self::Unsound => "the chunk table, or the record of a dedicated block, is not sound",
            Self::ZeroSize => "the size is 0",
            Self::Alignment => "the alignment is not a power of two",
            Self::Granularity => "the granularity is not a power of two",
            Self::Kind => "the kind is neither 1, linear, nor 2, non-linear",
            Self::NoRoom => "no free chunk holds the request",
            Self::NoId => "a chunk would have to be split, and no id is left",
            Self::NoSlot => "a chunk would have to be split, and no slot is empty",
            Self::UnknownId => "no live chunk has this id",
            Self::Occupied => "the dedicated block is occupied",
            Self::OtherSize => "the size is not that of the dedicated block",
            Self::BlockSize => "the block size is 0, or above 2^40 for a free-list block",
            Self::Sizes => "the block-size rules cannot produce these sizes",
            Self::Amount => "the amount is 2^50 bytes or more",
            Self::ShortBuffer => "the buffer is too short for the text",
            Self::NotId1 => "the id is not 1, the only one of a dedicated block",
        }
    }
}

impl fmt::Display for Refusal {
    fn fmt(&self, f: &mut fmt::Formatter<'_>) -> fmt::Result {
        write!(f, "refusal {}: {}", self.number(), self.reason())
    }
}

impl Error for Refusal {}

/// Takes the number that a call of the archive answered, 0 meaning accepted.
// A number that is no refusal's stops the program: the archive is proved never to answer one, so the
// archive that was linked is another one, and none of its answers can be relied on.
pub(crate) fn accepted(number: u64) -> Result<(), Refusal> {
    match number {
        0 => Ok(()),
        _ => Err(Refusal::of(number)
            .unwrap_or_else(|| panic!("the archive answered {number}, which is no refusal"))),
    }
}
