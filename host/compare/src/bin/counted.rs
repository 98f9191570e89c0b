//! `counted`: names some tables, each with its number of words. `counted strides`: numbers of which each
//! names a full table, with ids in this stride. `counted TABLE CALL`: makes a call on the table as it is,
//! once for each of some requests or ids, and prints how often. The script `count`, beside Cargo.toml,
//! counts the instructions.

use std::backtrace::Backtrace;
use std::env;
use std::iter;
use std::num::NonZeroU64;
use std::sync::Arc;

use lunkaseyo::ffi;
use lunkaseyo_compare::calls::{expected, Answer, Call};
use lunkaseyo_compare::generator::shuffle_slots;
use lunkaseyo_compare::leaks;
use lunkaseyo_compare::random::Random;
use lunkaseyo_compare::rust::{self, AllocationReport, FreeListAllocator, Request, SubAllocator};
use lunkaseyo_compare::table::{Table, MOST_SLOTS};
use lunkaseyo_compare::tracked::{Placed, Tracked};

/// A call that is counted, by its name. It gives how often it was made.
type Counted = (&'static str, fn(&Table) -> usize);

const CALLS: [Counted; 7] = [
    ("check", check),
    ("allocate", allocate),
    ("crate-allocate", crate_allocate),
    ("free", free),
    ("crate-free", crate_free),
    ("walk", walk),
    ("crate-walk", crate_walk),
];

/// How many requests are made on each table.
const REQUESTS: usize = 32;

/// Ids are spread over the numbers below this.
const IDS: u64 = 1 << 20;

/// The bytes of a block: 16 MiB, of which the chunk at the end has most.
const SIZE: u64 = 1 << 24;

fn main() {
    let arguments: Vec<String> = env::args().skip(1).collect();
    let [name, call] = &arguments[..] else {
        name_tables(!arguments.is_empty());
        return;
    };
    let table = match name.parse() {
        Ok(stride) => in_stride(stride),
        Err(_) => named(name),
    };
    let call = CALLS.into_iter().find(|(named, _)| named == call);
    let names = CALLS.map(|(name, _)| name).join(", ");
    let (_, make) = call.unwrap_or_else(|| panic!("the calls are {names}"));
    println!("{}", make(&table));
}

/// Those in a stride, or the others with their words.
fn name_tables(in_strides: bool) {
    if in_strides {
        strides().for_each(|stride| println!("{stride}"));
        return;
    }
    for (name, table) in tables() {
        println!("{name} {}", table.words().len());
    }
}

fn named(name: &str) -> Table {
    let table = tables().into_iter().find(|(named, _)| named == name);
    table.expect("counted alone names the tables").1
}

// ---- the calls that are counted, which the script finds by these names

#[inline(never)]
fn measured_check(words: &[u64], allocated: &mut u64) -> u64 {
    ffi::block_allocated(words, allocated)
}

#[inline(never)]
fn measured_allocate(
    words: &mut [u64],
    request: ffi::Request,
    offset: &mut u64,
    id: &mut u64,
) -> u64 {
    ffi::block_allocate(words, request, offset, id)
}

#[inline(never)]
fn measured_free(words: &mut [u64], id: u64) -> u64 {
    ffi::block_free(words, id)
}

#[inline(never)]
fn measured_step(words: &[u64], place: &mut u64, leak: &mut ffi::Leak) -> u64 {
    ffi::leaks_step(words, place, leak)
}

#[inline(never)]
fn measured_crate_allocate(
    block: &mut FreeListAllocator,
    request: Request,
    name: &str,
    backtrace: Arc<Backtrace>,
) -> rust::Result<(u64, NonZeroU64)> {
    let kind = rust::kind(request.kind);
    let Request {
        size,
        alignment,
        granularity,
        ..
    } = request;
    block.allocate(size, alignment, kind, granularity, name, backtrace)
}

#[inline(never)]
fn measured_crate_free(block: &mut FreeListAllocator, id: Option<NonZeroU64>) -> rust::Result<()> {
    block.free(id)
}

#[inline(never)]
fn measured_crate_report(block: &FreeListAllocator) -> Vec<AllocationReport> {
    block.report_allocations()
}

// ---- the same with what goes before and after

/// The question what is allocated, which looks at the whole table and does little else.
fn check(table: &Table) -> usize {
    let mut allocated = 0;
    let number = measured_check(&table.words(), &mut allocated);
    assert_eq!((number, allocated), (0, table.allocated));
    1
}

fn allocate(table: &Table) -> usize {
    let before = table.words();
    let ask = |request: Request| {
        let (mut offset, mut id) = (0, 0);
        let mut words = before.clone();
        let Request {
            size,
            alignment,
            kind,
            granularity,
            label,
        } = request;
        let numbers = [size, alignment, kind, granularity, label];
        let number = measured_allocate(&mut words, numbers, &mut offset, &mut id);
        let answer = Answer { number, offset, id };
        assert_eq!((answer, words), expected(&before, Call::Allocate(request)));
    };
    requests().map(ask).count()
}

fn crate_allocate(table: &Table) -> usize {
    let ask = |request: Request| {
        let mut block = Tracked::of(table).into_block();
        let name = request.label.to_string();
        let backtrace = Arc::new(Backtrace::disabled());
        let placed = measured_crate_allocate(&mut block, request, &name, backtrace);
        placed.expect("there is room for each request");
    };
    requests().map(ask).count()
}

fn free(table: &Table) -> usize {
    let before = table.words();
    let give_back = |id: u64| {
        let mut words = before.clone();
        let answer = Answer::plain(measured_free(&mut words, id));
        assert_eq!((answer, words), expected(&before, Call::Free(id)));
    };
    live_ids(table).map(give_back).count()
}

fn crate_free(table: &Table) -> usize {
    let give_back = |id: u64| {
        let mut block = Tracked::of(table).into_block();
        let freed = measured_crate_free(&mut block, NonZeroU64::new(id));
        freed.expect("the id is live");
    };
    live_ids(table).map(give_back).count()
}

/// A whole walk: each live chunk, and the end.
fn walk(table: &Table) -> usize {
    let words = table.words();
    let (mut place, mut leak) = (0, ffi::Leak::default());
    for chunk in table.chunks.iter().filter(|chunk| !chunk.is_free()) {
        let number = measured_step(&words, &mut place, &mut leak);
        assert_eq!((number, leak), (0, leaks::leak(chunk)));
    }
    let number = measured_step(&words, &mut place, &mut leak);
    assert_eq!((number, leak), (0, leaks::NOTHING));
    1
}

/// The crate's report of the same chunks, for which it copies each name.
fn crate_walk(table: &Table) -> usize {
    let report = measured_crate_report(&Tracked::of(table).into_block());
    assert_eq!(report.len(), live_ids(table).count());
    1
}

// ---- requests and tables

/// Buffers and images of 256 bytes to 64 KiB, where a page has 1024 bytes.
fn requests() -> impl Iterator<Item = Request> {
    let mut random = Random::seeded(REQUESTS as u64);
    iter::repeat_with(move || any_request(&mut random)).take(REQUESTS)
}

fn any_request(random: &mut Random) -> Request {
    Request {
        size: 256 * (1 + random.below(256)),
        alignment: random.pick(&[64, 256, 1024]),
        kind: 1 + random.below(2),
        granularity: 1024,
        label: 1 + random.below(40),
    }
}

fn live_ids(table: &Table) -> impl Iterator<Item = u64> + '_ {
    let live = table.chunks.iter().filter(|chunk| !chunk.is_free());
    live.map(|chunk| chunk.id)
}

/// A small and a large table, with slots as calls leave them and in any order.
fn tables() -> Vec<(String, Table)> {
    let mut tables = Vec::new();
    for (slots, chunks) in [(64, 50), (512, 400)] {
        let mut table = alternating(slots, chunks);
        tables.push((format!("{chunks}-of-{slots}-dense"), table.clone()));
        shuffle_slots(&mut table, &mut Random::seeded(slots as u64));
        tables.push((format!("{chunks}-of-{slots}-shuffled"), table));
    }
    tables
}

/// Powers of two, and some sizes that a record of a few words has.
fn strides() -> impl Iterator<Item = u64> {
    (0..=20).map(|power| 1 << power).chain(vec![40, 80, 120])
}

/// As many chunks as a table can have, the last one free, with ids from 1 on in this stride.
fn in_stride(stride: u64) -> Table {
    let mut requests = Random::seeded(SIZE);
    let mut block = Tracked::new(2 * SIZE, MOST_SLOTS);
    while !block.is_full() {
        placed(&mut block, any_request(&mut requests));
    }
    let mut table = block.table();
    let ids = (0..).map(|place| 1 + place * stride);
    table.next_id = 1 + MOST_SLOTS as u64 * stride;
    table
        .chunks
        .iter_mut()
        .zip(ids)
        .for_each(|(chunk, id)| chunk.id = id);
    assert_eq!(table.chunks.len(), MOST_SLOTS);
    table
}

/// A block of this many chunks, an even number, of which every other one is free.
fn alternating(slots: usize, chunks: u64) -> Table {
    let mut random = Random::seeded(chunks);
    let mut requests = Random::seeded(SIZE);
    let mut block = Tracked::new(SIZE, slots);
    let mut ids = Vec::new();
    let mut next = 2;
    for place in 1..chunks {
        // an id from the chunk's own share of them
        let id = place * (IDS / chunks) + random.below(IDS / chunks);
        block.skip_ids(id - next);
        ids.push(placed(&mut block, any_request(&mut requests)));
        next = id + 1;
    }
    for id in ids.into_iter().skip(1).step_by(2) {
        block.free(id);
    }
    let table = block.table();
    assert_eq!(table.chunks.len() as u64, chunks);
    assert_eq!(live_ids(&table).count() as u64, chunks / 2);
    table
}

/// The id that a request gets.
fn placed(block: &mut Tracked, request: Request) -> u64 {
    let Placed::At { id, .. } = block.allocate(request) else {
        panic!("there is room for {request:?}");
    };
    id
}
