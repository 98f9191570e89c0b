//! `record_calls [FILE]`: adds the recorded calls to the end of FILE, which `record_pages` began, or
//! writes them to standard output.

use std::env;
use std::fs::OpenOptions;
use std::io::{self, Write};

use lunkaseyo_compare::blocks;
use lunkaseyo_compare::dedicated;

fn main() -> io::Result<()> {
    let sample = blocks::recorded() + &dedicated::recorded::recorded();
    match env::args_os().nth(1) {
        Some(file) => OpenOptions::new()
            .append(true)
            .open(file)?
            .write_all(sample.as_bytes()),
        None => io::stdout().write_all(sample.as_bytes()),
    }
}
