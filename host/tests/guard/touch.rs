//! Right and wrong accesses to guarded memory, each in a process that it may end.

use std::env;
use std::process::{Command, ExitStatus};

use super::memory::{self, Access, Fenced, Side};

/// Names the access to the process that makes it.
const TOUCH: &str = "GUARDED_TOUCH";

/// One access to a byte that is lent, at a side that is guarded, or to the byte next to it.
#[derive(Debug)]
pub struct Touch {
    number: usize,
    side: Side,
    lent_for: Access,
    outside: bool,
    writes: bool,
}

impl Touch {
    /// Every access that there is.
    pub fn all() -> impl Iterator<Item = Self> {
        (0..16).map(Self::of)
    }

    fn of(number: usize) -> Self {
        let bit = |place: usize| number >> place & 1;
        Self {
            number,
            side: Side::BOTH[bit(0)],
            lent_for: [Access::Read, Access::ReadWrite][bit(1)],
            outside: bit(2) == 1,
            writes: bit(3) == 1,
        }
    }

    /// The access that this process was started for, if it was.
    pub fn asked_for() -> Option<Self> {
        let number = env::var(TOUCH).ok()?;
        Some(Self::of(number.parse().expect("a number")))
    }

    /// Whether it is to end the process.
    pub fn is_wrong(&self) -> bool {
        self.outside || self.writes && self.lent_for == Access::Read
    }

    pub fn make(&self) {
        let mut memory = Fenced::new(3);
        let lent = memory.lend(b"abc", self.side, self.lent_for).as_ptr_range();
        let outside = usize::from(self.outside);
        let address = match self.side {
            Side::Front => lent.start as usize - outside,
            Side::Back => lent.end as usize - 1 + outside,
        };
        if self.writes {
            memory::write(address, b'z');
        } else {
            memory::read(address);
        }
    }

    /// Starts this program again, for one test of it, which makes the access.
    pub fn in_a_child(&self, test: &str) -> ExitStatus {
        let this = env::current_exe().expect("the test's own program");
        let ended = Command::new(this)
            .args(["--exact", test])
            .env(TOUCH, self.number.to_string())
            .output();
        ended.expect("it can be started again").status
    }
}
