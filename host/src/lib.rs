//! Memory blocks of a GPU: parts of gpu-allocator, proved in Rattle and called here from safe Rust.
//!
//! - [`Block`]: a free-list block, whose table lies in words of the caller. It is asked for memory by a
//!   [`Request`], and gives an [`Allocation`].
//! - [`Block::leaks`]: the memory that a block has handed out and not got back, a [`Leak`] at a time.
//! - [`Dedicated`]: a block that holds one allocation, which takes all of it.
//! - [`AllocationSizes`]: how large the next memory block is to be.
//! - [`fmt_bytes`] and [`byte_text`]: an amount of memory as text.
//!
//! A call that cannot be answered gives a [`Refusal`], which has a number and a sentence, and changes nothing.
//! The example program `hour` shows them together: `cargo run --offline --example hour`.
//!
//! ```
//! use lunkaseyo::{byte_text, AllocationSizes, Refusal};
//!
//! # fn main() -> Result<(), Refusal> {
//! const MB: u64 = 1024 * 1024;
//! let sizes = AllocationSizes::new(8 * MB, 8 * MB).with_max_device_memblock_size(256 * MB)?;
//! let third = sizes.get_memblock_size(false, 2)?;
//! assert_eq!(byte_text(third)?.as_str(), "32.00 MB");
//! # Ok(())
//! # }
//! ```
#![deny(missing_docs, unsafe_code)]

mod block;
mod dedicated;
#[allow(unsafe_code)]
pub mod ffi;
mod leaks;
mod refusal;
mod sizes;
mod text;

pub use block::{Allocation, Block, Kind, Request};
pub use dedicated::{Dedicated, Report};
pub use leaks::{Leak, Leaks};
pub use refusal::Refusal;
pub use sizes::AllocationSizes;
pub use text::{byte_text, fmt_bytes, ByteText};
