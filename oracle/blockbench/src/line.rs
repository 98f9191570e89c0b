//! What a line asks for.

use crate::rust::Request;

/// A readable line.
#[derive(Clone, Copy, Debug)]
pub enum Call {
    /// `n size slots`: a new block.
    New {
        /// Its bytes.
        size: u64,
        /// How many chunks it has room for.
        slots: u64,
    },
    /// `a size alignment kind granularity label`: memory in the block.
    Allocate(Request),
    /// `f id`: the memory with this id given back.
    Free(u64),
}

/// Reads a line, without its line feed: a letter and its numbers, one space between any two of them.
pub fn read(line: &[u8]) -> Option<Call> {
    // two spaces, or one at an end, make an empty field, which is neither a letter nor a number
    let mut fields = line.split(|&byte| byte == b' ');
    let letter = fields.next()?;
    let mut next = || number(fields.next()?);
    let call = match letter {
        b"n" => Call::New {
            size: next()?,
            slots: next()?,
        },
        b"a" => Call::Allocate(Request {
            size: next()?,
            alignment: next()?,
            kind: next()?,
            granularity: next()?,
            label: next()?,
        }),
        b"f" => Call::Free(next()?),
        _ => return None,
    };
    fields.next().is_none().then_some(call)
}

/// The value of one or more decimal digits, if it is below 2^64.
fn number(digits: &[u8]) -> Option<u64> {
    let (first, rest) = digits.split_first()?;
    rest.iter().try_fold(digit(*first)?, |value, &byte| {
        value.checked_mul(10)?.checked_add(digit(byte)?)
    })
}

fn digit(byte: u8) -> Option<u64> {
    byte.is_ascii_digit().then(|| u64::from(byte - b'0'))
}
