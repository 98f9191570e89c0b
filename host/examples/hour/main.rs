//! An hour of the station: the files of its units become a buffer and an image each in a block of graphics
//! memory, and at night everything is given back.
//!
//! ```text
//! cargo run --offline --example hour -- [--forget UNIT] [FILE...]
//! ```
//!
//! Where no file is named it makes forty samples, and removes them when they are read. `--forget UNIT` keeps
//! that unit's image over night, to show a leak. The status is 1 where two ranges overlap or share a page
//! that they may not, and 2 where a file cannot be read or an argument is wrong.

#![forbid(unsafe_code)]

mod check;
mod night;
mod options;
mod row;
mod samples;
mod unit;

use std::env;
use std::error::Error;
use std::path::PathBuf;
use std::process::ExitCode;

use lunkaseyo::{byte_text, AllocationSizes, Block, Refusal};

use options::Options;
use row::{Row, KINDS, PAGE};
use samples::Samples;
use unit::Unit;

fn main() -> ExitCode {
    match hour() {
        Ok(true) => ExitCode::SUCCESS,
        Ok(false) => ExitCode::FAILURE,
        Err(fault) => {
            eprintln!("hour: {fault}");
            ExitCode::from(2)
        }
    }
}

/// The whole hour. Tells whether every range stands where it may.
fn hour() -> Result<bool, Box<dyn Error>> {
    let options = Options::read(env::args_os().skip(1))?;
    let units = units(&options.files)?;
    options.check(units.len() as u64)?;
    let size = block_size(&units)?;
    println!("five past: a block of {}", byte_text(size)?);
    // as many slots as a table can have
    let mut words = vec![0; Block::words(512)];
    let mut block = Block::new(&mut words, size)?;

    let rows = place(&mut block, &units);
    print_table(&rows)?;
    let faults = check::faults(&rows);
    print_faults(&rows, &faults);

    night::give_back(&mut block, &rows, options.forgotten)?;
    night::print_leaks(&block)?;
    Ok(faults.is_empty())
}

/// The units whose files are named, or those of the samples.
fn units(named: &[PathBuf]) -> Result<Vec<Unit>, Box<dyn Error>> {
    if !named.is_empty() {
        return Unit::read_all(named);
    }
    let samples = Samples::make()?;
    println!(
        "{} sample files in {}",
        samples.files.len(),
        samples.folder.display()
    );
    Unit::read_all(&samples.files)
}

/// The first size of a growing block that has room for all units, or the largest that there is.
fn block_size(units: &[Unit]) -> Result<u64, Refusal> {
    const MB: u64 = 1024 * 1024;
    // before each range there may be padding, which is less than a page
    let room = |unit: &Unit| KINDS.map(|kind| unit.size(kind) + PAGE).iter().sum::<u64>();
    let needed: u64 = units.iter().map(room).sum();
    let sizes = AllocationSizes::new(4 * MB, 4 * MB).with_max_device_memblock_size(256 * MB)?;
    let mut size = 0;
    for count in 0.. {
        size = sizes.get_memblock_size(false, count)?;
        if size >= needed || size == sizes.max_device_memblock_size {
            break;
        }
    }
    Ok(size)
}

/// Asks for a buffer and an image a unit. What the block refuses is told, and the hour goes on.
fn place(block: &mut Block, units: &[Unit]) -> Vec<Row> {
    let mut rows = Vec::new();
    for unit in units {
        for kind in KINDS {
            match block.allocate(unit.request(kind)) {
                Ok(placed) => rows.push(unit.row(kind, placed)),
                Err(refusal) => println!("unit {}, {}: {refusal}", unit.number, row::name(kind)),
            }
        }
    }
    rows
}

fn print_table(rows: &[Row]) -> Result<(), Refusal> {
    println!("unit  kind       offset       size    id  bytes in words");
    for row in rows {
        println!("{row}  {}", byte_text(row.size)?);
    }
    Ok(())
}

fn print_faults(rows: &[Row], faults: &[String]) {
    for fault in faults {
        println!("wrong: {fault}");
    }
    if faults.is_empty() {
        println!("checked: no two of {} ranges overlap", rows.len());
        println!("checked: no buffer is on a page of {PAGE} bytes with an image");
    }
}
