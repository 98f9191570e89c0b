//! `damaged SEED LINES` writes random lines of calls, of which that many are damaged.

use std::io::{self, BufWriter};

use lunkaseyo_oracle_blockbench::arguments::seed_and_lines;
use lunkaseyo_oracle_blockbench::files::write_damaged;

fn main() -> io::Result<()> {
    let (seed, lines) = seed_and_lines();
    write_damaged(seed, lines, BufWriter::new(io::stdout().lock()))
}
