//! What the comparisons with the Rust share: the Rust itself, inputs to run both sides on, and a
//! reading of chunk tables by the rules.
#![deny(missing_docs, unsafe_code)]

pub mod blocks;
pub mod both;
pub mod boundary;
pub mod call_tally;
pub mod caller;
pub mod calls;
pub mod counts;
pub mod damage;
pub mod dedicated;
pub mod generator;
pub mod kept;
pub mod leaks;
pub mod pages;
pub mod parts;
pub mod random;
pub mod reading;
pub mod requests;
pub mod runs;
pub mod rust;
pub mod sort;
pub mod sorts;
pub mod table;
pub mod tally;
pub mod tracked;
