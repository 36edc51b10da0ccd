//! Memory between two pages that cannot be touched: a slice at its end or its beginning cannot be left unnoticed.

use std::ffi::c_void;

const PAGE: usize = 4096;
const NONE: i32 = 0;
const READ_WRITE: i32 = 3;
const PRIVATE_ANONYMOUS: i32 = 0x22;

extern "C" {
    fn mmap(at: *mut c_void, bytes: usize, allowed: i32, flags: i32, file: i32, offset: i64) -> *mut c_void;
    fn mprotect(at: *mut c_void, bytes: usize, allowed: i32) -> i32;
    fn munmap(at: *mut c_void, bytes: usize) -> i32;
}

pub struct Pages {
    /// behind the first page, and how many bytes there are before the last
    start: *mut u8,
    bytes: usize,
}

impl Pages {
    pub fn new() -> Self {
        Pages::of(4 * PAGE)
    }

    fn of(bytes: usize) -> Self {
        // SAFETY: fresh memory, and a part of it made accessible.
        unsafe {
            let all = mmap(std::ptr::null_mut(), bytes + 2 * PAGE, NONE, PRIVATE_ANONYMOUS, -1, 0);
            assert!(all as isize != -1, "no memory");
            let start = all.cast::<u8>().add(PAGE);
            assert_eq!(mprotect(start.cast(), bytes, READ_WRITE), 0, "no memory");
            Pages { start, bytes }
        }
    }

    /// A copy of the slice at the end or the beginning, until the next copy.
    pub fn put<T: Copy>(&mut self, slice: &[T], at_end: bool) -> &mut [T] {
        let bytes = std::mem::size_of_val(slice);
        if bytes > self.bytes {
            *self = Pages::of(bytes.next_multiple_of(PAGE) * 2);
        }
        let offset = if at_end { self.bytes - bytes } else { 0 };
        // SAFETY: the place has room for the slice, is aligned (a page, less whole elements), and is borrowed as long as the answer is.
        unsafe {
            let place = self.start.add(offset).cast::<T>();
            std::ptr::copy_nonoverlapping(slice.as_ptr(), place, slice.len());
            std::slice::from_raw_parts_mut(place, slice.len())
        }
    }
}

impl Drop for Pages {
    fn drop(&mut self) {
        // SAFETY: what `of` mapped, and nothing else.
        unsafe {
            munmap(self.start.sub(PAGE).cast(), self.bytes + 2 * PAGE);
        }
    }
}
