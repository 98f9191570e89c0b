//! `record_runs [FILE]`: writes the recorded runs to FILE, or to standard output.

use std::io::{self, Write};
use std::{env, fs};

use lunkaseyo_compare::runs;

fn main() -> io::Result<()> {
    let statements = runs::recorded();
    match env::args_os().nth(1) {
        Some(file) => fs::write(file, statements),
        None => io::stdout().write_all(statements.as_bytes()),
    }
}
