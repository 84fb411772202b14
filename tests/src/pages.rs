//! Whole pages of memory between two that may be neither read nor written.

use std::ptr::null_mut;

const PAGE: usize = 4096;
const READ: i32 = 1;
const READ_WRITE: i32 = 3;
const PRIVATE_ANONYMOUS: i32 = 0x22;

extern "C" {
    fn mmap(at: *mut u8, length: usize, rights: i32, flags: i32, file: i32, offset: i64) -> *mut u8;
    fn mprotect(at: *mut u8, length: usize, rights: i32) -> i32;
    fn munmap(at: *mut u8, length: usize) -> i32;
}

pub struct Pages {
    /// The first page, which may not be touched.
    first: *mut u8,
    length: usize,
}

impl Pages {
    /// The length of the pages that hold so many bytes.
    pub fn rounded(length: usize) -> usize {
        length.max(1).div_ceil(PAGE) * PAGE
    }

    /// Pages that hold these bytes, as many as `rounded` gives.
    pub fn of(bytes: &[u8]) -> Pages {
        let length = bytes.len();
        assert!(length == Pages::rounded(length), "whole pages");
        let first = unsafe { mmap(null_mut(), length + 2 * PAGE, 0, PRIVATE_ANONYMOUS, -1, 0) };
        assert!(first as isize != -1, "no memory");
        let mut pages = Pages { first, length };
        assert!(unsafe { mprotect(pages.start(), length, READ_WRITE) } == 0, "no memory");
        pages.bytes_mut().copy_from_slice(bytes);
        pages
    }

    /// From here on the bytes may be read only.
    pub fn seal(&mut self) {
        assert!(unsafe { mprotect(self.start(), self.length, READ) } == 0, "pages to be read");
    }

    fn start(&self) -> *mut u8 {
        self.first.wrapping_add(PAGE)
    }

    pub fn bytes(&self) -> &[u8] {
        unsafe { std::slice::from_raw_parts(self.start(), self.length) }
    }

    pub fn bytes_mut(&mut self) -> &mut [u8] {
        unsafe { std::slice::from_raw_parts_mut(self.start(), self.length) }
    }
}

impl Drop for Pages {
    fn drop(&mut self) {
        unsafe { munmap(self.first, self.length + 2 * PAGE) };
    }
}
