//! The two numbers that the writers of files are given.

use std::env;
use std::process;

/// SEED and LINES, from the command line. Without them the program ends, and says what it wants.
pub fn seed_and_lines() -> (u64, u64) {
    let arguments: Vec<String> = env::args().collect();
    let numbers: Result<Vec<u64>, _> = arguments[1..].iter().map(|text| text.parse()).collect();
    match numbers.as_deref() {
        Ok([seed, lines]) => (*seed, *lines),
        _ => {
            eprintln!("usage: {} SEED LINES", arguments[0]);
            process::exit(2)
        }
    }
}
