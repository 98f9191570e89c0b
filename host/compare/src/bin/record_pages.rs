//! `record_pages [FILE]`: writes the recorded sample to FILE, or to standard output.

use std::io::{self, Write};
use std::{env, fs};

use lunkaseyo_compare::pages;

fn main() -> io::Result<()> {
    let sample = pages::recorded();
    match env::args_os().nth(1) {
        Some(file) => fs::write(file, sample),
        None => io::stdout().write_all(sample.as_bytes()),
    }
}
