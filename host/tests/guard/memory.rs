//! Memory between two pages that nobody may touch, and the C library's functions that make it. All that is
//! unsafe in the tests stands here.

use std::mem::size_of_val;
use std::os::raw::{c_int, c_void};
use std::{ptr, slice};

extern "C" {
    fn mmap(
        at: *mut c_void,
        length: usize,
        access: c_int,
        flags: c_int,
        file: c_int,
        offset: i64,
    ) -> *mut c_void;
    fn mprotect(at: *mut c_void, length: usize, access: c_int) -> c_int;
    fn munmap(at: *mut c_void, length: usize) -> c_int;
}

// Linux on x86-64, which the archive is for
const PAGE: usize = 4096;
const NO_ACCESS: c_int = 0;
const READ: c_int = 1;
const READ_WRITE: c_int = 3;
const PRIVATE_ANONYMOUS: c_int = 0x22;

/// Where what is lent lies flush against a page that nobody may touch.
#[derive(Clone, Copy, Debug, PartialEq, Eq)]
pub enum Side {
    /// Its first byte is the first behind such a page.
    Front,
    /// Its last byte is the last before such a page.
    Back,
}

impl Side {
    pub const BOTH: [Self; 2] = [Self::Front, Self::Back];
}

/// What may be done with what is lent.
#[derive(Clone, Copy, Debug, PartialEq, Eq)]
pub enum Access {
    /// A write ends the process.
    Read,
    /// Both may be done.
    ReadWrite,
}

/// Values of which all bits may be anything.
pub trait Plain: Copy {}
impl Plain for u8 {}
impl Plain for u64 {}

/// Pages with one before them and one behind them that nobody may touch.
pub struct Fenced {
    first: *mut u8,
    room: usize,
}

impl Fenced {
    /// Room for so many bytes at least.
    pub fn new(bytes: usize) -> Self {
        let room = (bytes + PAGE - 1) / PAGE * PAGE;
        // SAFETY: new memory, which nothing else lies in
        let whole = unsafe {
            let anywhere = ptr::null_mut();
            mmap(
                anywhere,
                room + 2 * PAGE,
                NO_ACCESS,
                PRIVATE_ANONYMOUS,
                -1,
                0,
            )
        };
        assert_ne!(whole as isize, -1, "no memory was mapped");
        let first = whole.cast::<u8>().wrapping_add(PAGE);
        Self { first, room }
    }

    /// A copy of these values, flush against the side.
    // A `&mut` to memory that may only be read is sound as long as nobody writes, which is what it is for.
    pub fn lend<T: Plain>(&mut self, values: &[T], side: Side, access: Access) -> &mut [T] {
        let bytes = size_of_val(values);
        assert!(bytes <= self.room, "{bytes} bytes are too many");
        let skipped = match side {
            Side::Front => 0,
            Side::Back => self.room - bytes,
        };
        let at = self.first.wrapping_add(skipped).cast::<T>();
        self.allow(READ_WRITE);
        // SAFETY: `at` has room for the values, at the front of a page or a multiple of their size before the
        // end of one, and `&mut self` keeps anything else from being lent meanwhile
        let lent = unsafe {
            ptr::copy_nonoverlapping(values.as_ptr(), at, values.len());
            slice::from_raw_parts_mut(at, values.len())
        };
        if access == Access::Read {
            self.allow(READ);
        }
        lent
    }

    fn allow(&self, access: c_int) {
        // SAFETY: the pages are this value's own, and their bytes stay
        let failed = unsafe { mprotect(self.first.cast(), self.room, access) };
        assert_eq!(failed, 0, "the access to the memory was not changed");
    }
}

impl Drop for Fenced {
    fn drop(&mut self) {
        let whole = self.first.wrapping_sub(PAGE).cast();
        // SAFETY: what `new` mapped, and nothing of it is lent any more
        unsafe { munmap(whole, self.room + 2 * PAGE) };
    }
}

/// Reads the byte at an address, or ends the process.
pub fn read(address: usize) -> u8 {
    // SAFETY: none for an address outside of what is lent: the process is to end there
    unsafe { (address as *const u8).read_volatile() }
}

/// Writes the byte at an address, or ends the process.
pub fn write(address: usize, byte: u8) {
    // SAFETY: as for `read`
    unsafe { (address as *mut u8).write_volatile(byte) }
}
