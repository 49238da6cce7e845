//! Pages of memory, as the system hands them out.

use std::ffi::{c_int, c_void};
use std::ptr;

const NONE: c_int = 0;
const READ: c_int = 1;
const READ_WRITE: c_int = 3;
/// Private, anonymous, and not counted before it is touched.
const FLAGS: c_int = 0x02 | 0x20 | 0x4000;

extern "C" {
    fn mmap(
        at: *mut c_void,
        length: usize,
        access: c_int,
        flags: c_int,
        file: c_int,
        offset: i64,
    ) -> *mut c_void;
    fn mprotect(at: *mut c_void, length: usize, access: c_int) -> c_int;
    fn munmap(at: *mut c_void, length: usize) -> c_int;
}

/// Fresh pages of zeros, freed when they are dropped.
pub struct Pages {
    pub start: *mut u8,
    length: usize,
}

impl Pages {
    /// Pages that may not be touched.
    pub fn closed(length: usize) -> Pages {
        Pages::new(length, NONE)
    }

    /// Pages that may be read.
    pub fn readable(length: usize) -> Pages {
        Pages::new(length, READ)
    }

    fn new(length: usize, access: c_int) -> Pages {
        // SAFETY: no memory in use is touched.
        let start = unsafe { mmap(ptr::null_mut(), length, access, FLAGS, -1, 0) };
        assert!(start as isize != -1, "no memory for a buffer of {length} bytes");
        Pages { start: start.cast(), length }
    }

    /// Opens some of the pages, to be read and written; where they are is given from the first page's first byte.
    pub fn open(&mut self, first: usize, length: usize) {
        assert!(first + length <= self.length);
        // SAFETY: they are these pages, and nobody has lost a right to them.
        let opened = unsafe { mprotect(self.start.add(first).cast(), length, READ_WRITE) };
        assert_eq!(opened, 0, "no memory for a buffer of {length} bytes");
    }
}

impl Drop for Pages {
    fn drop(&mut self) {
        // SAFETY: the pages of `new`, which nobody borrows any more.
        unsafe {
            munmap(self.start.cast(), self.length);
        }
    }
}
