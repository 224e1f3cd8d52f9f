//! Memory by pages, of which a test says what may be done with them. Any other access ends the program.

use std::ffi::c_void;
use std::mem;
use std::ops::{Deref, DerefMut};
use std::ptr;
use std::slice;

pub const PAGE: usize = 4096;

/// What may be done with a page.
pub const CLOSED: i32 = 0;
pub const READ: i32 = 1;
pub const READ_WRITE: i32 = 3;

const PRIVATE_ANONYMOUS: i32 = 0x22;

#[rustfmt::skip]
extern "C" {
    fn mmap(at: *mut c_void, length: usize, access: i32, flags: i32, file: i32, offset: i64) -> *mut c_void;
    fn mprotect(at: *mut c_void, length: usize, access: i32) -> i32;
    fn munmap(at: *mut c_void, length: usize) -> i32;
}

/// Pages of zeros that nobody else has, with one after them that is closed.
pub struct Pages {
    start: *mut u8,
    bytes: usize,
}

impl Pages {
    /// As many as the bytes take.
    pub fn new(bytes: usize) -> Self {
        let bytes = (bytes + PAGE - 1) / PAGE * PAGE;
        let all = bytes + PAGE;
        let start = unsafe { mmap(ptr::null_mut(), all, READ_WRITE, PRIVATE_ANONYMOUS, -1, 0) };
        assert!(!start.is_null() && start as isize != -1);
        let pages = Pages {
            start: start.cast(),
            bytes,
        };
        let closed = unsafe { mprotect(pages.end().cast(), PAGE, CLOSED) };
        assert_eq!(closed, 0);
        pages
    }

    /// Where the closed page starts.
    pub fn end(&self) -> *mut u8 {
        self.start.wrapping_add(self.bytes)
    }

    fn allow(&self, access: i32) {
        if self.bytes > 0 {
            let allowed = unsafe { mprotect(self.start.cast(), self.bytes, access) };
            assert_eq!(allowed, 0);
        }
    }
}

impl Drop for Pages {
    fn drop(&mut self) {
        unsafe { munmap(self.start.cast(), self.bytes + PAGE) };
    }
}

/// Elements right ahead of a closed page.
pub struct Guarded<T> {
    from: *mut T,
    count: usize,
    pages: Pages,
}

impl<T: Copy> Guarded<T> {
    /// A copy of these.
    pub fn new(values: &[T]) -> Self {
        let pages = Pages::new(mem::size_of_val(values));
        let from = pages.end().cast::<T>().wrapping_sub(values.len());
        assert_eq!(from as usize % mem::align_of::<T>(), 0);
        // The pages have room for all of them.
        unsafe { ptr::copy_nonoverlapping(values.as_ptr(), from, values.len()) };
        Guarded {
            from,
            count: values.len(),
            pages,
        }
    }

    /// The same, to be read only.
    pub fn read_only(values: &[T]) -> ReadOnly<T> {
        let lent = Guarded::new(values);
        lent.pages.allow(READ);
        ReadOnly(lent)
    }
}

impl<T> Deref for Guarded<T> {
    type Target = [T];

    fn deref(&self) -> &[T] {
        unsafe { slice::from_raw_parts(self.from, self.count) }
    }
}

impl<T> DerefMut for Guarded<T> {
    fn deref_mut(&mut self) -> &mut [T] {
        unsafe { slice::from_raw_parts_mut(self.from, self.count) }
    }
}

/// Elements right ahead of a closed page that cannot be written.
pub struct ReadOnly<T>(Guarded<T>);

impl<T> Deref for ReadOnly<T> {
    type Target = [T];

    fn deref(&self) -> &[T] {
        &self.0
    }
}
