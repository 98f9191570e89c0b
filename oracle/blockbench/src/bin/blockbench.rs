//! Answers the calls on its input, a line each, as the Rust does.

use std::io::{self, BufReader, BufWriter};

use lunkaseyo_oracle_blockbench::bench::Bench;

/// The bytes that are read or written at once.
const AT_ONCE: usize = 1 << 16;

fn main() -> io::Result<()> {
    let input = BufReader::with_capacity(AT_ONCE, io::stdin().lock());
    let output = BufWriter::with_capacity(AT_ONCE, io::stdout().lock());
    Bench::default().run(input, output)
}
