//! The night of the hour: everything is given back, and what was not is told.

use lunkaseyo::{byte_text, Block, Kind, Refusal};

use crate::row::{self, Row};

/// Gives every range back but the image of the unit that is forgotten.
pub fn give_back(block: &mut Block, rows: &[Row], forgotten: Option<u64>) -> Result<(), Refusal> {
    let is_kept = |row: &Row| row.kind == Kind::NonLinear && forgotten == Some(row.unit);
    for row in rows.iter().filter(|row| !is_kept(row)) {
        block.free(row.id)?;
    }
    Ok(())
}

/// Tells what is still handed out, and how much that is in all.
pub fn print_leaks(block: &Block) -> Result<(), Refusal> {
    for leak in block.leaks()? {
        let (unit, kind) = (leak.label, row::name(leak.kind));
        let (from, size) = (leak.first_byte, leak.size);
        println!(
            "leaked: unit {unit}, {kind}, id {}, {size} bytes from {from} on with padding",
            leak.id
        );
    }
    let count = block.leaks()?.count();
    let allocated = byte_text(block.allocated()?)?;
    println!("night: {count} leaked, {allocated} allocated");
    Ok(())
}
