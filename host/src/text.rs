//! An amount of memory as text.

use std::fmt;

use crate::ffi;
use crate::refusal::{accepted, Refusal};

/// Writes `amount` bytes as text, such as `1.50 KB`, to the front of `buf`, and gives its length.
///
/// The rest of `buf` is kept. An amount of 2^50 or more is refused with number 15, then a buffer
/// that is too short with number 16; [`ByteText::LONGEST`] bytes are always enough.
///
/// ```
/// let mut buf = *b"............";
/// assert_eq!(lunkaseyo::fmt_bytes(1536, &mut buf), Ok(7));
/// assert_eq!(&buf, b"1.50 KB.....");
/// ```
pub fn fmt_bytes(amount: u64, buf: &mut [u8]) -> Result<usize, Refusal> {
    let mut length = 0;
    let number = ffi::fmt_bytes(amount, buf, &mut length);
    // The text lies in `buf`, so its length is no larger than a usize.
    accepted(number).map(|()| length as usize)
}

/// `amount` bytes as a text of its own; refused, with number 15, from 2^50 on.
///
/// ```
/// let text = lunkaseyo::byte_text(1023)?;
/// assert_eq!(format!("[{text:>10}]"), "[ 1023.00 B]");
/// # Ok::<(), lunkaseyo::Refusal>(())
/// ```
pub fn byte_text(amount: u64) -> Result<ByteText, Refusal> {
    let mut bytes = [0; ByteText::LONGEST];
    let length = fmt_bytes(amount, &mut bytes)?;
    Ok(ByteText { bytes, length })
}

/// The text of [`byte_text`], held without the heap.
///
/// ```
/// let text: lunkaseyo::ByteText = lunkaseyo::byte_text(1152)?;
/// assert_eq!(text.to_string(), "1.12 KB");
/// # Ok::<(), lunkaseyo::Refusal>(())
/// ```
#[derive(Clone, Copy, Debug, PartialEq, Eq, Hash)]
pub struct ByteText {
    bytes: [u8; Self::LONGEST],
    length: usize,
}

impl ByteText {
    /// The length of the longest text, `1024.00 KB`.
    ///
    /// ```
    /// let text = lunkaseyo::byte_text(1024 * 1024 - 1)?;
    /// assert_eq!(text.as_str().len(), lunkaseyo::ByteText::LONGEST);
    /// # Ok::<(), lunkaseyo::Refusal>(())
    /// ```
    pub const LONGEST: usize = 10;

    /// The text.
    ///
    /// ```
    /// assert_eq!(lunkaseyo::byte_text(0)?.as_str(), "0.00 B");
    /// # Ok::<(), lunkaseyo::Refusal>(())
    /// ```
    pub fn as_str(&self) -> &str {
        std::str::from_utf8(&self.bytes[..self.length])
            .expect("digits, a point, a space and a unit")
    }
}

impl fmt::Display for ByteText {
    fn fmt(&self, f: &mut fmt::Formatter<'_>) -> fmt::Result {
        f.pad(self.as_str())
    }
}
