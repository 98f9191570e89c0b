//! Dedicated blocks: calls on their records, the right answers to hold against the library's, and what
//! calls come to.

pub mod both;
pub mod caller;
pub mod calls;
pub mod recorded;
pub mod sorts;
pub mod tally;
