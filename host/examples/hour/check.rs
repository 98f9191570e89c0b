//! The hour's own check of where ranges stand, which knows nothing of how they were placed.

use crate::row::{Row, PAGE};

/// What is wrong with each two of the rows that may not stand as they do.
pub fn faults(rows: &[Row]) -> Vec<String> {
    let pairs = rows.iter().enumerate().flat_map(|(place, row)| {
        let later = &rows[place + 1..];
        later.iter().map(move |other| (row, other))
    });
    pairs.filter_map(|(row, other)| fault(row, other)).collect()
}

fn fault(a: &Row, b: &Row) -> Option<String> {
    if meet(bytes(a), bytes(b)) {
        Some(format!("ids {} and {} overlap", a.id, b.id))
    } else if a.kind != b.kind && meet(pages(a), pages(b)) {
        Some(format!("ids {} and {} share a page", a.id, b.id))
    } else {
        None
    }
}

/// The first and the last byte; no range is empty.
fn bytes(row: &Row) -> (u64, u64) {
    (row.offset, row.offset + row.size - 1)
}

fn pages(row: &Row) -> (u64, u64) {
    let (first, last) = bytes(row);
    (first / PAGE, last / PAGE)
}

/// Whether two runs, each with its first and its last, have something in common.
fn meet(a: (u64, u64), b: (u64, u64)) -> bool {
    a.0 <= b.1 && b.0 <= a.1
}
