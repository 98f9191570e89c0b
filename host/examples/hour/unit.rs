//! A unit of the station: what it logged, and what it asks the block for.

use std::error::Error;
use std::fs;
use std::path::PathBuf;

use lunkaseyo::{Allocation, Kind, Request};

use crate::row::{Row, PAGE};

/// An entropy device, and how many bytes it logged in the hour.
pub struct Unit {
    pub number: u64,
    bytes: u64,
}

impl Unit {
    /// Reads a file for each unit; they are numbered from 1.
    pub fn read_all(files: &[PathBuf]) -> Result<Vec<Self>, Box<dyn Error>> {
        let mut units = Vec::new();
        for (number, file) in (1..).zip(files) {
            let logged = fs::read(file).map_err(|fault| format!("{}: {fault}", file.display()))?;
            let bytes = logged.len() as u64;
            units.push(Self { number, bytes });
        }
        Ok(units)
    }

    /// How many bytes the unit's buffer or image has.
    pub fn size(&self, kind: Kind) -> u64 {
        match kind {
            Kind::Linear => self.bytes,
            // a bit is painted as one grey point, which takes a byte
            Kind::NonLinear => 8 * self.bytes,
        }
    }

    /// What the unit asks for. The label is its number, so that a leak tells whose it is.
    pub fn request(&self, kind: Kind) -> Request {
        Request {
            size: self.size(kind),
            alignment: match kind {
                Kind::Linear => 256,
                Kind::NonLinear => PAGE,
            },
            kind,
            granularity: PAGE,
            label: self.number,
        }
    }

    /// The row of what it got.
    pub fn row(&self, kind: Kind, placed: Allocation) -> Row {
        Row {
            unit: self.number,
            kind,
            offset: placed.offset,
            size: self.size(kind),
            id: placed.id,
        }
    }
}
