//! `calls SEED LINES` writes that many random lines of calls.

use std::io::{self, BufWriter};

use lunkaseyo_oracle_blockbench::arguments::seed_and_lines;
use lunkaseyo_oracle_blockbench::files::write_calls;

fn main() -> io::Result<()> {
    let (seed, lines) = seed_and_lines();
    write_calls(seed, lines, BufWriter::new(io::stdout().lock()))
}
