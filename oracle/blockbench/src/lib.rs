//! The text program blockbench as the Rust would answer it, and random and damaged lines to run it on.
#![deny(missing_docs, unsafe_code)]

pub mod arguments;
pub mod bench;
pub mod block;
pub mod damage;
pub mod files;
pub mod habits;
pub mod line;
#[path = "../../../host/compare/src/random.rs"]
pub mod random;
#[path = "../../../host/compare/src/requests.rs"]
pub mod requests;
#[path = "../../../host/compare/src/rust.rs"]
pub mod rust;
pub mod script;
