//! Whole files of lines, the same for each seed.

use std::io::{self, Write};

use crate::damage::damage;
use crate::random::Random;
use crate::script::Script;

/// Writes this many random lines of calls.
pub fn write_calls(seed: u64, lines: u64, mut output: impl Write) -> io::Result<()> {
    let mut script = Script::seeded(seed);
    for _ in 0..lines {
        write_whole(&mut script, &mut output)?;
    }
    output.flush()
}

/// Writes this many damaged lines, and about as many others between them. The last line is a whole one without its line feed.
pub fn write_damaged(seed: u64, lines: u64, mut output: impl Write) -> io::Result<()> {
    let mut script = Script::seeded(seed);
    let mut random = Random::seeded(!seed);
    for _ in 0..lines {
        for _ in 0..random.below(3) {
            write_whole(&mut script, &mut output)?;
        }
        let mut line = damaged(&mut script, &mut random);
        script.follow(&line);
        line.push(b'\n');
        output.write_all(&line)?;
    }
    output.write_all(b"n 1 1")?;
    output.flush()
}

fn write_whole(script: &mut Script, output: &mut impl Write) -> io::Result<()> {
    let mut line = script.next_line();
    script.follow(&line);
    line.push(b'\n');
    output.write_all(&line)
}

/// A damaged line. A good part are for a new block: in a file of calls they are rare.
fn damaged(script: &mut Script, random: &mut Random) -> Vec<u8> {
    let mut line = if random.once_in(8) {
        script.new_block_line()
    } else {
        script.next_line()
    };
    damage(&mut line, random);
    line
}
