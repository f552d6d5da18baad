//! Memory whose neighbours may not be touched: a read or write beyond a slice ends the test with a
//! signal.

use std::ffi::c_void;
use std::os::raw::c_int;
use std::ptr;
use std::slice;

extern "C" {
    fn mmap(
        at: *mut c_void,
        length: usize,
        prot: c_int,
        flags: c_int,
        fd: c_int,
        offset: i64,
    ) -> *mut c_void;
    fn mprotect(at: *mut c_void, length: usize, prot: c_int) -> c_int;
    fn munmap(at: *mut c_void, length: usize) -> c_int;
}

// The same on Linux for x86-64 and aarch64.
const PROT_NONE: c_int = 0;
const PROT_READ_AND_WRITE: c_int = 1 | 2;
const MAP_PRIVATE_AND_ANONYMOUS: c_int = 0x02 | 0x20;

/// A whole number of pages, whichever size pages have here.
const LENGTH: usize = 4 * 65_536;

/// [`LENGTH`] bytes, with as many that cannot be read or written on either side.
pub struct Guarded {
    start: *mut u8,
}

impl Guarded {
    pub fn new() -> Self {
        // SAFETY: fresh memory at an address of the kernel's choice; only the middle third is ever
        // opened.
        unsafe {
            let whole = mmap(
                ptr::null_mut(),
                3 * LENGTH,
                PROT_NONE,
                MAP_PRIVATE_AND_ANONYMOUS,
                -1,
                0,
            );
            assert!(whole as isize != -1, "mmap");
            let start = whole.cast::<u8>().add(LENGTH);
            assert_eq!(
                mprotect(start.cast(), LENGTH, PROT_READ_AND_WRITE),
                0,
                "mprotect"
            );
            Self { start }
        }
    }

    /// A copy of `bytes` that ends where the memory does.
    pub fn at_end(&mut self, bytes: &[u8]) -> &mut [u8] {
        self.at(LENGTH - bytes.len(), bytes)
    }

    /// A copy of `bytes` that starts where the memory does.
    pub fn at_start(&mut self, bytes: &[u8]) -> &mut [u8] {
        self.at(0, bytes)
    }

    /// A copy of `bytes` that starts at `offset`.
    pub fn at(&mut self, offset: usize, bytes: &[u8]) -> &mut [u8] {
        // SAFETY: the middle third is ours alone as long as `self` is.
        let memory = unsafe { slice::from_raw_parts_mut(self.start, LENGTH) };
        let place = &mut memory[offset..][..bytes.len()];
        place.copy_from_slice(bytes);
        place
    }
}

impl Drop for Guarded {
    fn drop(&mut self) {
        // SAFETY: what `new` mapped, of which no slice is left.
        unsafe { munmap(self.start.sub(LENGTH).cast(), 3 * LENGTH) };
    }
}
