//! A row of the hour's table: a range of the block that was handed out.

use std::fmt;

use lunkaseyo::Kind;

/// No buffer and image on one page of so many bytes: Vulkan's bufferImageGranularity.
pub const PAGE: u64 = 1024;

/// A unit has one range of each.
pub const KINDS: [Kind; 2] = [Kind::Linear, Kind::NonLinear];

/// What a range is called by its kind.
pub fn name(kind: Kind) -> &'static str {
    match kind {
        Kind::Linear => "buffer",
        Kind::NonLinear => "image",
    }
}

/// Where a unit's buffer or image stands.
pub struct Row {
    pub unit: u64,
    pub kind: Kind,
    pub offset: u64,
    pub size: u64,
    pub id: u64,
}

impl fmt::Display for Row {
    fn fmt(&self, f: &mut fmt::Formatter<'_>) -> fmt::Result {
        let (unit, offset, size, id) = (self.unit, self.offset, self.size, self.id);
        let kind = name(self.kind);
        write!(f, "{unit:>4}  {kind:<6} {offset:>10} {size:>10} {id:>5}")
    }
}
