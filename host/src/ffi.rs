//! The archive's functions one to one, each behind a signature that makes it safe to call.
//!
//! They answer plain numbers: 0 for accepted or a refusal's number, and out-values that are all
//! zeros on a refusal. `lunkaseyo.h` says what each answers. The rest of this crate puts types on
//! them; call these only to see the numbers.
//!
//! ```
//! use lunkaseyo::{ffi, Refusal};
//!
//! let (mut record, mut offset, mut id): (ffi::Record, u64, u64) = ([4096, 0, 0], 7, 7);
//! let of_kind_3: ffi::Request = [4096, 1, 3, 1, 0];
//! let number = ffi::dedicated_allocate(&mut record, of_kind_3, &mut offset, &mut id);
//! assert_eq!(Refusal::of(number), Some(Refusal::Kind));
//! assert_eq!((record, offset, id), ([4096, 0, 0], 0, 0));
//! ```

/// Block sizes as they cross: minimum and maximum for the device, then both for the host.
pub type Words = [u64; 4];

/// What a block is asked for, as it crosses: size, alignment, kind, granularity, label.
pub type Request = [u64; 5];

/// A live chunk as it crosses: id, first byte, size, kind, label.
pub type Leak = [u64; 5];

/// The record of a dedicated block: size, bytes allocated, label.
pub type Record = [u64; 3];

/// What a dedicated block reports, as it crosses: first byte, size, label.
pub type Report = [u64; 3];

mod archive {
    use super::{Leak, Record, Report, Words};

    extern "C" {
        pub fn lunkaseyo_fmt_bytes(
            amount: u64,
            buf: *mut u8,
            buf_len: usize,
            written: &mut u64,
        ) -> u64;
        pub fn lunkaseyo_sizes_new(
            device_memblock_size: u64,
            host_memblock_size: u64,
            sizes: &mut Words,
        );
        pub fn lunkaseyo_sizes_default(sizes: &mut Words);
        pub fn lunkaseyo_sizes_with_max_device_memblock_size(
            min_device: u64,
            max_device: u64,
            min_host: u64,
            max_host: u64,
            size: u64,
            sizes: &mut Words,
        ) -> u64;
        pub fn lunkaseyo_sizes_with_max_host_memblock_size(
            min_device: u64,
            max_device: u64,
            min_host: u64,
            max_host: u64,
            size: u64,
            sizes: &mut Words,
        ) -> u64;
        pub fn lunkaseyo_sizes_get_memblock_size(
            min_device: u64,
            max_device: u64,
            min_host: u64,
            max_host: u64,
            is_host: u64,
            count: u64,
            size: &mut u64,
        ) -> u64;
        pub fn lunkaseyo_block_new(words: *mut u64, words_len: usize, size: u64) -> u64;
        pub fn lunkaseyo_block_allocate(
            words: *mut u64,
            words_len: usize,
            size: u64,
            alignment: u64,
            kind: u64,
            granularity: u64,
            label: u64,
            offset: &mut u64,
            id: &mut u64,
        ) -> u64;
        pub fn lunkaseyo_block_free(words: *mut u64, words_len: usize, id: u64) -> u64;
        pub fn lunkaseyo_block_rename_allocation(
            words: *mut u64,
            words_len: usize,
            id: u64,
            label: u64,
        ) -> u64;
        pub fn lunkaseyo_block_allocated(
            words: *const u64,
            words_len: usize,
            allocated: &mut u64,
        ) -> u64;
        pub fn lunkaseyo_block_is_empty(
            words: *const u64,
            words_len: usize,
            is_empty: &mut u64,
        ) -> u64;
        pub fn lunkaseyo_leaks_start(words: *const u64, words_len: usize, place: &mut u64) -> u64;
        pub fn lunkaseyo_leaks_step(
            words: *const u64,
            words_len: usize,
            place: &mut u64,
            leak: &mut Leak,
        ) -> u64;
        pub fn lunkaseyo_dedicated_new(record: &mut Record, size: u64) -> u64;
        pub fn lunkaseyo_dedicated_allocate(
            record: &mut Record,
            size: u64,
            alignment: u64,
            kind: u64,
            granularity: u64,
            label: u64,
            offset: &mut u64,
            id: &mut u64,
        ) -> u64;
        pub fn lunkaseyo_dedicated_free(record: &mut Record, id: u64) -> u64;
        pub fn lunkaseyo_dedicated_rename_allocation(
            record: &mut Record,
            id: u64,
            label: u64,
        ) -> u64;
        pub fn lunkaseyo_dedicated_allocated(record: &Record, allocated: &mut u64) -> u64;
        pub fn lunkaseyo_dedicated_is_empty(record: &Record, is_empty: &mut u64) -> u64;
        pub fn lunkaseyo_dedicated_report_allocations(record: &Record, report: &mut Report) -> u64;
    }
}

// SAFETY, of every call below: the functions are proved to touch nothing but the memory lent to
// them, and to return. What they ask of the caller, valid pointers to memory that does not overlap,
// is what `&mut` says, and `&` of memory that they only read.

/// `lunkaseyo_fmt_bytes`
///
/// ```
/// let (mut buf, mut written) = (*b"........", 0);
/// assert_eq!(lunkaseyo::ffi::fmt_bytes(1536, &mut buf, &mut written), 0);
/// assert_eq!((&buf, written), (b"1.50 KB.", 7));
/// assert_eq!(lunkaseyo::ffi::fmt_bytes(1536, &mut [], &mut written), 16);
/// ```
pub fn fmt_bytes(amount: u64, buf: &mut [u8], written: &mut u64) -> u64 {
    unsafe { archive::lunkaseyo_fmt_bytes(amount, buf.as_mut_ptr(), buf.len(), written) }
}

/// `lunkaseyo_sizes_new`
///
/// ```
/// let mut sizes = [0; 4];
/// lunkaseyo::ffi::sizes_new(0, 5 << 20, &mut sizes);
/// assert_eq!(sizes, [4 << 20, 4 << 20, 8 << 20, 8 << 20]);
/// ```
pub fn sizes_new(device_memblock_size: u64, host_memblock_size: u64, sizes: &mut Words) {
    unsafe { archive::lunkaseyo_sizes_new(device_memblock_size, host_memblock_size, sizes) }
}

/// `lunkaseyo_sizes_default`
///
/// ```
/// let mut sizes: lunkaseyo::ffi::Words = [0; 4];
/// lunkaseyo::ffi::sizes_default(&mut sizes);
/// assert_eq!(sizes, [256 << 20, 256 << 20, 64 << 20, 64 << 20]);
/// ```
pub fn sizes_default(sizes: &mut Words) {
    unsafe { archive::lunkaseyo_sizes_default(sizes) }
}

/// `lunkaseyo_sizes_with_max_device_memblock_size`
///
/// ```
/// use lunkaseyo::ffi::sizes_with_max_device_memblock_size as with_max_device;
///
/// let mut sizes = [0; 4];
/// assert_eq!(with_max_device([4 << 20; 4], 8 << 20, &mut sizes), 0);
/// assert_eq!(sizes, [4 << 20, 8 << 20, 4 << 20, 4 << 20]);
/// assert_eq!(with_max_device([0; 4], 8 << 20, &mut sizes), 14);
/// ```
pub fn sizes_with_max_device_memblock_size(from: Words, size: u64, sizes: &mut Words) -> u64 {
    let [min_device, max_device, min_host, max_host] = from;
    unsafe {
        archive::lunkaseyo_sizes_with_max_device_memblock_size(
            min_device, max_device, min_host, max_host, size, sizes,
        )
    }
}

/// `lunkaseyo_sizes_with_max_host_memblock_size`
///
/// ```
/// use lunkaseyo::ffi::sizes_with_max_host_memblock_size as with_max_host;
///
/// let mut sizes = [0; 4];
/// assert_eq!(with_max_host([4 << 20; 4], 8 << 20, &mut sizes), 0);
/// assert_eq!(sizes, [4 << 20, 4 << 20, 4 << 20, 8 << 20]);
/// assert_eq!(with_max_host([0; 4], 8 << 20, &mut sizes), 14);
/// ```
pub fn sizes_with_max_host_memblock_size(from: Words, size: u64, sizes: &mut Words) -> u64 {
    let [min_device, max_device, min_host, max_host] = from;
    unsafe {
        archive::lunkaseyo_sizes_with_max_host_memblock_size(
            min_device, max_device, min_host, max_host, size, sizes,
        )
    }
}

/// `lunkaseyo_sizes_get_memblock_size`
///
/// ```
/// let mut size = 0;
/// let sizes = [4 << 20, 64 << 20, 4 << 20, 4 << 20];
/// assert_eq!(lunkaseyo::ffi::sizes_get_memblock_size(sizes, 0, 2, &mut size), 0);
/// assert_eq!(size, 16 << 20);
/// ```
pub fn sizes_get_memblock_size(from: Words, is_host: u64, count: u64, size: &mut u64) -> u64 {
    let [min_device, max_device, min_host, max_host] = from;
    unsafe {
        archive::lunkaseyo_sizes_get_memblock_size(
            min_device, max_device, min_host, max_host, is_host, count, size,
        )
    }
}

/// `lunkaseyo_block_new`
///
/// ```
/// let mut words = [7; 11];
/// assert_eq!(lunkaseyo::ffi::block_new(&mut words, 0), 13);
/// assert_eq!(lunkaseyo::ffi::block_new(&mut words, 4096), 0);
/// assert_eq!(words, [4096, 0, 2, 1, 1, 4096, 0, 0, 0, 0, 0]);
/// ```
pub fn block_new(words: &mut [u64], size: u64) -> u64 {
    unsafe { archive::lunkaseyo_block_new(words.as_mut_ptr(), words.len(), size) }
}

/// `lunkaseyo_block_allocate`
///
/// ```
/// let mut words = [4096, 0, 2, 1, 1, 4096, 0, 0, 0, 0, 0];
/// let (mut offset, mut id) = (7, 7);
/// let all = [4096, 1, 1, 1, 0];
/// assert_eq!(lunkaseyo::ffi::block_allocate(&mut words, all, &mut offset, &mut id), 0);
/// assert_eq!((offset, id), (0, 1));
/// assert_eq!(lunkaseyo::ffi::block_allocate(&mut words, all, &mut offset, &mut id), 7);
/// ```
pub fn block_allocate(words: &mut [u64], request: Request, offset: &mut u64, id: &mut u64) -> u64 {
    let [size, alignment, kind, granularity, label] = request;
    unsafe {
        archive::lunkaseyo_block_allocate(
            words.as_mut_ptr(),
            words.len(),
            size,
            alignment,
            kind,
            granularity,
            label,
            offset,
            id,
        )
    }
}

/// `lunkaseyo_block_free`
///
/// ```
/// let mut words = [64, 64, 2, 1, 1, 64, 0, 1, 7, 0, 0];
/// assert_eq!(lunkaseyo::ffi::block_free(&mut words, 1), 0);
/// assert_eq!(lunkaseyo::ffi::block_free(&mut words, 1), 10);
/// ```
pub fn block_free(words: &mut [u64], id: u64) -> u64 {
    unsafe { archive::lunkaseyo_block_free(words.as_mut_ptr(), words.len(), id) }
}

/// `lunkaseyo_block_rename_allocation`
///
/// ```
/// let mut words = [64, 64, 2, 1, 1, 64, 0, 1, 7, 0, 0];
/// assert_eq!(lunkaseyo::ffi::block_rename_allocation(&mut words, 1, 8), 0);
/// assert_eq!(words[8], 8);
/// assert_eq!(lunkaseyo::ffi::block_rename_allocation(&mut words, 2, 8), 10);
/// ```
pub fn block_rename_allocation(words: &mut [u64], id: u64, label: u64) -> u64 {
    unsafe {
        archive::lunkaseyo_block_rename_allocation(words.as_mut_ptr(), words.len(), id, label)
    }
}

/// `lunkaseyo_block_allocated`
///
/// ```
/// let words = [64, 64, 2, 1, 1, 64, 0, 1, 7, 0, 0];
/// let mut allocated = 7;
/// assert_eq!(lunkaseyo::ffi::block_allocated(&words, &mut allocated), 0);
/// assert_eq!(allocated, 64);
/// assert_eq!(lunkaseyo::ffi::block_allocated(&words[..10], &mut allocated), 1);
/// ```
pub fn block_allocated(words: &[u64], allocated: &mut u64) -> u64 {
    unsafe { archive::lunkaseyo_block_allocated(words.as_ptr(), words.len(), allocated) }
}

/// `lunkaseyo_block_is_empty`
///
/// ```
/// let words = [64, 64, 2, 1, 1, 64, 0, 1, 7, 0, 0];
/// let mut is_empty = 7;
/// assert_eq!(lunkaseyo::ffi::block_is_empty(&words, &mut is_empty), 0);
/// assert_eq!(is_empty, 0);
/// ```
pub fn block_is_empty(words: &[u64], is_empty: &mut u64) -> u64 {
    unsafe { archive::lunkaseyo_block_is_empty(words.as_ptr(), words.len(), is_empty) }
}

/// `lunkaseyo_leaks_start`
///
/// ```
/// let words = [64, 64, 2, 1, 1, 64, 0, 1, 7, 0, 0];
/// let mut place = 7;
/// assert_eq!(lunkaseyo::ffi::leaks_start(&words, &mut place), 0);
/// assert_eq!(place, 0);
/// ```
pub fn leaks_start(words: &[u64], place: &mut u64) -> u64 {
    unsafe { archive::lunkaseyo_leaks_start(words.as_ptr(), words.len(), place) }
}

/// `lunkaseyo_leaks_step`
///
/// ```
/// let words = [64, 64, 2, 1, 1, 64, 0, 1, 7, 0, 0];
/// let (mut place, mut leak): (u64, lunkaseyo::ffi::Leak) = (0, [7; 5]);
/// assert_eq!(lunkaseyo::ffi::leaks_step(&words, &mut place, &mut leak), 0);
/// assert_eq!((leak, place), ([1, 0, 64, 1, 7], 64));
/// // The end is no refusal.
/// assert_eq!(lunkaseyo::ffi::leaks_step(&words, &mut place, &mut leak), 0);
/// assert_eq!(leak, [0; 5]);
/// ```
pub fn leaks_step(words: &[u64], place: &mut u64, leak: &mut Leak) -> u64 {
    unsafe { archive::lunkaseyo_leaks_step(words.as_ptr(), words.len(), place, leak) }
}

/// `lunkaseyo_dedicated_new`
///
/// ```
/// let mut record = [7; 3];
/// assert_eq!(lunkaseyo::ffi::dedicated_new(&mut record, 64), 0);
/// assert_eq!(record, [64, 0, 0]);
/// ```
pub fn dedicated_new(record: &mut Record, size: u64) -> u64 {
    unsafe { archive::lunkaseyo_dedicated_new(record, size) }
}

/// `lunkaseyo_dedicated_allocate`
///
/// ```
/// let (mut record, mut offset, mut id) = ([64, 0, 0], 7, 7);
/// let all = [64, 1, 1, 1, 5];
/// assert_eq!(lunkaseyo::ffi::dedicated_allocate(&mut record, all, &mut offset, &mut id), 0);
/// assert_eq!((record, offset, id), ([64, 64, 5], 0, 1));
/// ```
pub fn dedicated_allocate(
    record: &mut Record,
    request: Request,
    offset: &mut u64,
    id: &mut u64,
) -> u64 {
    let [size, alignment, kind, granularity, label] = request;
    unsafe {
        archive::lunkaseyo_dedicated_allocate(
            record,
            size,
            alignment,
            kind,
            granularity,
            label,
            offset,
            id,
        )
    }
}

/// `lunkaseyo_dedicated_free`
///
/// ```
/// let mut record = [64, 64, 5];
/// assert_eq!(lunkaseyo::ffi::dedicated_free(&mut record, 2), 18);
/// assert_eq!(lunkaseyo::ffi::dedicated_free(&mut record, 1), 0);
/// assert_eq!(record, [64, 0, 5]);
/// ```
pub fn dedicated_free(record: &mut Record, id: u64) -> u64 {
    unsafe { archive::lunkaseyo_dedicated_free(record, id) }
}

/// `lunkaseyo_dedicated_rename_allocation`
///
/// ```
/// let mut record = [64, 64, 5];
/// assert_eq!(lunkaseyo::ffi::dedicated_rename_allocation(&mut record, 1, 6), 0);
/// assert_eq!(record, [64, 64, 6]);
/// ```
pub fn dedicated_rename_allocation(record: &mut Record, id: u64, label: u64) -> u64 {
    unsafe { archive::lunkaseyo_dedicated_rename_allocation(record, id, label) }
}

/// `lunkaseyo_dedicated_allocated`
///
/// ```
/// let mut allocated = 7;
/// assert_eq!(lunkaseyo::ffi::dedicated_allocated(&[64, 64, 5], &mut allocated), 0);
/// assert_eq!(allocated, 64);
/// assert_eq!(lunkaseyo::ffi::dedicated_allocated(&[64, 1, 5], &mut allocated), 2);
/// ```
pub fn dedicated_allocated(record: &Record, allocated: &mut u64) -> u64 {
    unsafe { archive::lunkaseyo_dedicated_allocated(record, allocated) }
}

/// `lunkaseyo_dedicated_is_empty`
///
/// ```
/// let mut is_empty = 7;
/// assert_eq!(lunkaseyo::ffi::dedicated_is_empty(&[64, 0, 5], &mut is_empty), 0);
/// assert_eq!(is_empty, 1);
/// ```
pub fn dedicated_is_empty(record: &Record, is_empty: &mut u64) -> u64 {
    unsafe { archive::lunkaseyo_dedicated_is_empty(record, is_empty) }
}

/// `lunkaseyo_dedicated_report_allocations`
///
/// ```
/// let mut report: lunkaseyo::ffi::Report = [7; 3];
/// let number = lunkaseyo::ffi::dedicated_report_allocations(&[64, 0, 5], &mut report);
/// assert_eq!((number, report), (0, [0, 64, 5]));
/// ```
pub fn dedicated_report_allocations(record: &Record, report: &mut Report) -> u64 {
    unsafe { archive::lunkaseyo_dedicated_report_allocations(record, report) }
}
