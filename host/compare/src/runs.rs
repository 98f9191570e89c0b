//! Runs of calls on small blocks with the Rust's answers, written as statements about the model.
//!
//! They are kept in the repository as crates/model/specs/Recorded.antt, where the checker computes
//! them: so the model's definitions are held against the Rust, although they are no code.

use std::fmt::{self, Display};
use std::iter;
use std::ops::RangeInclusive;

use crate::calls::{answered, Answer, Call, Step, NO_ID};
use crate::random::Random;
use crate::rust::Request;
use crate::table::{Chunk, Table, LARGEST_BLOCK};
use crate::tracked::Tracked;

const HEAD: &str = "\
-- Runs of random calls as the Rust answers them, and the blocks after them, by computing. Assumes nothing.
-- Made in host/compare by `cargo run --release --bin record_runs FILE`: the answers of gpu-allocator 0.28.0 with
-- docs/oracle.patch. It has no slots and is not asked about ids that are not live: slots, 9 and 10 are the paper's.
use Rattle.std.specs.Prelude.{List, [], ◌∷◌, ◌≡◌, refl}
use Rattle.model.specs.Lines.{line, lines, ask, chunk, begin_at}
use Rattle.model.specs.Runs.{Call, run, begin}
use Rattle.model.specs.Runs.Call.{free, rename_to}
";

/// The next id of a new block.
const FIRST_ID: u64 = 2;

/// A block before the first call, and what most requests on it are like.
struct Start {
    size: u64,
    slots: usize,
    next_id: u64,
    /// The page that they name.
    page: u64,
    /// They are for multiples of this many bytes.
    unit: u64,
}

const STARTS: [Start; 10] = [
    // all on one page
    fresh(64, 6, 64),
    fresh(96, 4, 32),
    fresh(100, 12, 16),
    // chunks of few sizes, of which many are equal; here each byte has a page of its own
    Start {
        unit: 16,
        ..fresh(256, 12, 1)
    },
    Start {
        unit: 32,
        ..fresh(512, 10, 64)
    },
    fresh(1024, 12, 128),
    fresh(4096, 5, 256),
    fresh(4096, 11, 4096),
    fresh(LARGEST_BLOCK, 9, 64),
    // with two ids left, enough to fill its slots
    Start {
        next_id: NO_ID - 2,
        ..fresh(777, 3, 64)
    },
];

const fn fresh(size: u64, slots: usize, page: u64) -> Start {
    Start {
        size,
        slots,
        next_id: FIRST_ID,
        page,
        unit: 1,
    }
}

/// How many calls are made on each block. Of these numbers it is that which leaves most chunks live.
const CALLS: RangeInclusive<usize> = 28..=40;

/// The text of the model's file.
pub fn recorded() -> String {
    let runs = runs().into_iter().zip(1..);
    let statements = runs.map(|(run, number)| statements(number, &run));
    iter::once(HEAD.to_owned()).chain(statements).collect()
}

/// The runs that are recorded.
pub fn runs() -> Vec<Vec<Step>> {
    // in this series each rule comes up: tests/recorded_runs.rs counts
    let mut random = Random::seeded(699);
    STARTS.iter().map(|start| run(start, &mut random)).collect()
}

fn run(start: &Start, random: &mut Random) -> Vec<Step> {
    let mut block = Tracked::new(start.size, start.slots);
    block.skip_ids(start.next_id - FIRST_ID);
    let steps = iter::repeat_with(|| {
        let before = block.table();
        let call = any_call(start, &before, random);
        let answer = answered(&mut block, call);
        let after = block.table();
        Step {
            before,
            call,
            answer,
            after,
        }
    });
    let mut steps: Vec<Step> = steps.take(*CALLS.end()).collect();
    let fullest = CALLS.max_by_key(|count| live(&steps[count - 1].after).count());
    steps.truncate(fullest.expect("there is a number of calls"));
    steps
}

fn live(table: &Table) -> impl Iterator<Item = &Chunk> {
    table.chunks.iter().filter(|chunk| !chunk.is_free())
}

fn free(table: &Table) -> impl Iterator<Item = &Chunk> {
    table.chunks.iter().filter(|chunk| chunk.is_free())
}

// ---- the calls

/// A request, a free or a rename, now and then under an id that is not live.
fn any_call(start: &Start, table: &Table, random: &mut Random) -> Call {
    let ids: Vec<u64> = live(table).map(|chunk| chunk.id).collect();
    let id = if ids.is_empty() || random.once_in(6) {
        other_id(table, random)
    } else {
        random.pick(&ids)
    };
    match random.below(8) {
        0..=3 => Call::Allocate(any_request(start, table, random)),
        4 => Call::Rename(id, any_label(random)),
        _ => Call::Free(id),
    }
}

/// An id that is not live: 0, a free chunk's, or a small one that no chunk has.
fn other_id(table: &Table, random: &mut Random) -> u64 {
    let is_unused = |id: &u64| table.chunks.iter().all(|chunk| chunk.id != *id);
    let unused: Vec<u64> = (1..=*CALLS.end() as u64).filter(is_unused).collect();
    let mut ids: Vec<u64> = free(table).map(|chunk| chunk.id).collect();
    ids.extend([0, random.pick(&unused)]);
    random.pick(&ids)
}

/// A request for up to as many bytes as the block has for each slot, for as many as some chunk has,
/// or for any number.
fn any_request(start: &Start, table: &Table, random: &mut Random) -> Request {
    let most = (start.size / start.slots as u64 / start.unit).max(1);
    let usual = start.unit * (1 + random.below(most));
    let any = 1 + random.below(start.size + 1);
    let mut others: Vec<u64> = table.chunks.iter().map(|chunk| chunk.size).collect();
    others.push(any);
    let other = random.pick(&others);
    let (bits, page_bits) = (random.below(7), random.below(9));
    Request {
        size: random.pick(&[usual, usual, other]),
        alignment: 1 << random.pick(&[0, bits]),
        kind: 1 + random.below(2),
        granularity: random.pick(&[start.page, start.page, start.page, 1 << page_bits]),
        label: any_label(random),
    }
}

fn any_label(random: &mut Random) -> u64 {
    random.below(1000)
}

// ---- in the model's words

/// The calls of a run under a name, what they answer, and the block after the last.
fn statements(number: usize, run: &[Step]) -> String {
    let (first, last) = (&run[0], &run[run.len() - 1]);
    let Table {
        slots,
        size,
        next_id,
        ..
    } = first.before;
    let (start, fresh) = if next_id == FIRST_ID {
        (format!("(begin {size} {slots})"), "fresh block")
    } else {
        (
            format!("(begin_at {next_id} {size} {slots})"),
            "block, fresh but for its next id,",
        )
    };
    let calls = list(run.iter().map(|step| step.call), "    ");
    let lines = list(run.iter().map(Line), "    ");
    let chunks = list(last.after.chunks.iter().map(InWords), "      ");
    let (count, next_id) = (run.len(), last.after.next_id);
    // as the statements were respelled: the first six have names that the kit's library has too, and took its spelling
    let block = format!("block{}{number}", if number <= 6 { '_' } else { '-' });
    format!(
        "
abbrev calls_{number} : List Call
calls_{number} =
    {calls}

-- The lines of {count} calls on a {fresh} of {size} bytes with {slots} slots.
pub answers-{number} :
    lines calls_{number} {start}
    ≡ {lines}
unfolding lines
answers-{number} = refl

-- And the block after them.
pub {block} : (run calls_{number} {start}).block ≡ record {{
  size = {size};
  next = {next_id};
  slots = {slots};
  chunks =
      {chunks};
}}
unfolding lines
{block} = refl
"
    )
}

/// A list, each element on a line of its own.
fn list(elements: impl Iterator<Item = impl Display>, indent: &str) -> String {
    let elements = elements.map(|element| format!("{element}\n{indent}∷ "));
    elements.chain(iter::once("[]".to_owned())).collect()
}

impl Display for Call {
    fn fmt(&self, f: &mut fmt::Formatter<'_>) -> fmt::Result {
        match *self {
            Call::Allocate(Request {
                size,
                alignment,
                kind,
                granularity,
                label,
            }) => write!(f, "ask {size} {alignment} {kind} {granularity} {label}"),
            Call::Free(id) => write!(f, "free {id}"),
            Call::Rename(id, label) => write!(f, "rename_to {id} {label}"),
        }
    }
}

/// What a call answers, and what is allocated then.
struct Line<'a>(&'a Step);

impl Display for Line<'_> {
    fn fmt(&self, f: &mut fmt::Formatter<'_>) -> fmt::Result {
        let Answer { number, offset, id } = self.0.answer;
        let allocated = self.0.after.allocated;
        write!(f, "line {number} {offset} {id} {allocated}")
    }
}

/// A chunk as the model has it: its first byte follows from the chunks before it.
struct InWords<'a>(&'a Chunk);

impl Display for InWords<'_> {
    fn fmt(&self, f: &mut fmt::Formatter<'_>) -> fmt::Result {
        let Chunk {
            slot,
            id,
            size,
            kind,
            label,
            ..
        } = self.0;
        write!(f, "chunk {slot} {id} {size} {kind} {label}")
    }
}
