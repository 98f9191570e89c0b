//! What tests/guarded.rs is made of.

pub mod calls;
pub mod memory;
pub mod tables;
pub mod touch;
