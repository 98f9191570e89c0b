//! The program blockbench: a line in, an answer out.

use std::fmt;
use std::io::{self, BufRead, Write};

use crate::block::{Block, MOST_SLOTS};
use crate::line::{self, Call};

/// What is kept from line to line.
#[derive(Default)]
pub struct Bench {
    block: Option<Block>,
}

/// What a line is answered with.
#[derive(Clone, Copy, Debug, PartialEq, Eq)]
pub enum Answer {
    /// The line is no call, or there is no block for it.
    Unreadable,
    /// The four numbers of a call.
    Numbers {
        /// 0, or the number of the refusal.
        number: u64,
        /// Where the memory begins.
        offset: u64,
        /// Its id.
        id: u64,
        /// What the block has handed out after the call.
        allocated: u64,
    },
}

impl Bench {
    /// The block that the next line is for.
    pub fn block(&self) -> Option<&Block> {
        self.block.as_ref()
    }

    /// Answers a line, without its line feed.
    pub fn answer(&mut self, line: &[u8]) -> Answer {
        let answer = line::read(line).and_then(|call| self.call(call));
        answer.unwrap_or(Answer::Unreadable)
    }

    /// Answers all lines of an input. The last one needs no line feed.
    pub fn run(&mut self, mut input: impl BufRead, mut output: impl Write) -> io::Result<()> {
        let mut line = Vec::new();
        while input.read_until(b'\n', &mut line)? > 0 {
            let answer = self.answer(line.strip_suffix(b"\n").unwrap_or(&line));
            writeln!(output, "{answer}")?;
            line.clear();
        }
        output.flush()
    }

    /// Answers a call, if it has slots or a block.
    fn call(&mut self, call: Call) -> Option<Answer> {
        let placed = match call {
            Call::New { size, slots } => {
                if !(1..=MOST_SLOTS).contains(&slots) {
                    return None;
                }
                let made = Block::new(size, slots);
                let refusal = made.as_ref().err().copied();
                self.block = made.ok();
                refusal.map_or(Ok((0, 0)), Err)
            }
            Call::Allocate(request) => self.block.as_mut()?.allocate(request),
            Call::Free(id) => self.block.as_mut()?.free(id).map(|()| (0, 0)),
        };
        let allocated = self.block.as_ref().map_or(0, Block::allocated);
        Some(Answer::of(placed, allocated))
    }
}

impl Answer {
    fn of(placed: Result<(u64, u64), u64>, allocated: u64) -> Self {
        let (number, (offset, id)) = match placed {
            Ok(place) => (0, place),
            Err(number) => (number, (0, 0)),
        };
        Self::Numbers {
            number,
            offset,
            id,
            allocated,
        }
    }
}

impl fmt::Display for Answer {
    fn fmt(&self, f: &mut fmt::Formatter<'_>) -> fmt::Result {
        match self {
            Self::Unreadable => f.write_str("?"),
            Self::Numbers {
                number,
                offset,
                id,
                allocated,
            } => write!(f, "{number} {offset} {id} {allocated}"),
        }
    }
}
