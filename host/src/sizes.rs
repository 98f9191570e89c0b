//! The sizes of memory blocks.

use crate::ffi::{self, Words};
use crate::refusal::{accepted, Refusal};

/// The sizes of the memory blocks that an allocator opens.
///
/// Sizes are clamped to 4 MiB..256 MiB and rounded up to a multiple of 4 MiB. A maximum is never
/// below its minimum. The fields can be set to anything; sizes that these rules cannot produce are
/// refused, with number 14, when they are changed or asked.
///
/// ```
/// use lunkaseyo::AllocationSizes;
/// const MB: u64 = 1024 * 1024;
///
/// // Blocks of one size.
/// let fixed = AllocationSizes::new(256 * MB, 64 * MB);
/// assert_eq!(fixed, AllocationSizes::default());
/// assert_eq!(fixed.get_memblock_size(true, 3), Ok(64 * MB));
///
/// // Blocks that grow from 8 MiB, up to 64 MiB for the host.
/// let growing = AllocationSizes::new(8 * MB, 8 * MB).with_max_host_memblock_size(64 * MB)?;
/// assert_eq!(growing.get_memblock_size(true, 1), Ok(16 * MB));
/// assert_eq!(growing.get_memblock_size(true, 9), Ok(64 * MB));
///
/// let odd = AllocationSizes { max_host_memblock_size: 5 * MB, ..growing };
/// assert_eq!(odd.get_memblock_size(false, 0).unwrap_err().number(), 14);
/// # Ok::<(), lunkaseyo::Refusal>(())
/// ```
#[derive(Clone, Copy, Debug, PartialEq, Eq, Hash)]
pub struct AllocationSizes {
    /// The size of the first device memory block.
    pub min_device_memblock_size: u64,
    /// The size that device memory blocks grow to.
    pub max_device_memblock_size: u64,
    /// The size of the first host memory block.
    pub min_host_memblock_size: u64,
    /// The size that host memory blocks grow to.
    pub max_host_memblock_size: u64,
}

impl AllocationSizes {
    /// Blocks of one size for the device and one for the host, each brought into the rules.
    ///
    /// ```
    /// const MB: u64 = 1024 * 1024;
    /// let sizes = lunkaseyo::AllocationSizes::new(5 * MB, 257 * MB);
    /// assert_eq!(<[u64; 4]>::from(sizes), [8 * MB, 8 * MB, 256 * MB, 256 * MB]);
    /// ```
    pub fn new(device_memblock_size: u64, host_memblock_size: u64) -> Self {
        let mut words = Words::default();
        ffi::sizes_new(device_memblock_size, host_memblock_size, &mut words);
        words.into()
    }

    /// The same sizes with device blocks growing to `size`, brought into the rules and to the
    /// minimum at least. Refused with number 14.
    ///
    /// ```
    /// const MB: u64 = 1024 * 1024;
    /// let sizes = lunkaseyo::AllocationSizes::new(8 * MB, 8 * MB);
    /// let growing = sizes.with_max_device_memblock_size(255 * MB)?;
    /// assert_eq!(growing.max_device_memblock_size, 256 * MB);
    /// assert_eq!(sizes.with_max_device_memblock_size(0), Ok(sizes));
    /// # Ok::<(), lunkaseyo::Refusal>(())
    /// ```
    pub fn with_max_device_memblock_size(self, size: u64) -> Result<Self, Refusal> {
        self.changed(ffi::sizes_with_max_device_memblock_size, size)
    }

    /// The same sizes with host blocks growing to `size`, brought into the rules and to the
    /// minimum at least. Refused with number 14.
    ///
    /// ```
    /// const MB: u64 = 1024 * 1024;
    /// let growing = lunkaseyo::AllocationSizes::new(8 * MB, 4 * MB).with_max_host_memblock_size(13 * MB)?;
    /// assert_eq!(growing.max_host_memblock_size, 16 * MB);
    /// # Ok::<(), lunkaseyo::Refusal>(())
    /// ```
    pub fn with_max_host_memblock_size(self, size: u64) -> Result<Self, Refusal> {
        self.changed(ffi::sizes_with_max_host_memblock_size, size)
    }

    /// The size of the next block, for the host or the device, where `count` blocks are open: the
    /// minimum doubled for each of them, at most the maximum. Refused with number 14.
    ///
    /// ```
    /// use lunkaseyo::{AllocationSizes, Refusal};
    ///
    /// const MB: u64 = 1024 * 1024;
    /// let growing = AllocationSizes::new(8 * MB, 8 * MB).with_max_device_memblock_size(64 * MB)?;
    /// for (count, size) in [(0, 8), (1, 16), (3, 64), (9, 64)] {
    ///     assert_eq!(growing.get_memblock_size(false, count), Ok(size * MB));
    /// }
    /// let odd = AllocationSizes { min_host_memblock_size: 0, ..growing };
    /// assert_eq!(odd.get_memblock_size(false, 0), Err(Refusal::Sizes));
    /// # Ok::<(), Refusal>(())
    /// ```
    pub fn get_memblock_size(self, is_host: bool, count: u64) -> Result<u64, Refusal> {
        let mut size = 0;
        let number =
            ffi::sizes_get_memblock_size(self.into(), u64::from(is_host), count, &mut size);
        accepted(number).map(|()| size)
    }

    fn changed(
        self,
        setter: fn(Words, u64, &mut Words) -> u64,
        size: u64,
    ) -> Result<Self, Refusal> {
        let mut words = Words::default();
        accepted(setter(self.into(), size, &mut words)).map(|()| words.into())
    }
}

impl Default for AllocationSizes {
    /// 256 MiB for the device, 64 MiB for the host.
    ///
    /// ```
    /// let sizes = lunkaseyo::AllocationSizes::default();
    /// assert_eq!(sizes.min_device_memblock_size, 256 << 20);
    /// assert_eq!(sizes.min_host_memblock_size, 64 << 20);
    /// ```
    fn default() -> Self {
        let mut words = Words::default();
        ffi::sizes_default(&mut words);
        words.into()
    }
}

impl From<Words> for AllocationSizes {
    fn from([min_device, max_device, min_host, max_host]: Words) -> Self {
        Self {
            min_device_memblock_size: min_device,
            max_device_memblock_size: max_device,
            min_host_memblock_size: min_host,
            max_host_memblock_size: max_host,
        }
    }
}

impl From<AllocationSizes> for Words {
    fn from(sizes: AllocationSizes) -> Self {
        [
            sizes.min_device_memblock_size,
            sizes.max_device_memblock_size,
            sizes.min_host_memblock_size,
            sizes.max_host_memblock_size,
        ]
    }
}
