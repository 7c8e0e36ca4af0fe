//! Memory whose end is the end of what may be read: a byte past it faults.

use std::ffi::{c_int, c_long, c_void};

use crate::model::built::Group;

extern "C" {
    fn mmap(
        address: *mut c_void,
        length: usize,
        protection: c_int,
        flags: c_int,
        file: c_int,
        offset: c_long,
    ) -> *mut c_void;
    fn mprotect(address: *mut c_void, length: usize, protection: c_int) -> c_int;
    fn munmap(address: *mut c_void, length: usize) -> c_int;
}

const NONE: c_int = 0;
const READ_WRITE: c_int = 3;
const PRIVATE_ANONYMOUS: c_int = 0x22;
/// A multiple of every page size in use.
const PAGE: usize = 65_536;

/// Pages that can be used, followed by pages that cannot.
pub struct Guarded {
    base: *mut u8,
    room: usize,
}

impl Guarded {
    pub fn new(least: usize) -> Self {
        let room = least.div_ceil(PAGE) * PAGE;
        // SAFETY: a new mapping, of which the last pages are made inaccessible.
        unsafe {
            let whole = room + PAGE;
            let flags = PRIVATE_ANONYMOUS;
            let base = mmap(std::ptr::null_mut(), whole, READ_WRITE, flags, -1, 0);
            assert!(base as isize != -1, "no memory");
            let base: *mut u8 = base.cast();
            assert_eq!(mprotect(base.add(room).cast(), PAGE, NONE), 0, "no guard");
            Guarded { base, room }
        }
    }

    /// A copy of the items that ends where the usable pages end.
    pub fn copy<T: Copy>(&mut self, items: &[T]) -> &mut [T] {
        let size = std::mem::size_of_val(items);
        assert!(size <= self.room, "too long for the guarded memory");
        // SAFETY: the bytes lie inside the usable pages and are borrowed with `self`; the
        // end of the pages and the items' size keep `T` aligned.
        unsafe {
            let start = self.base.add(self.room - size).cast::<T>();
            start.copy_from_nonoverlapping(items.as_ptr(), items.len());
            std::slice::from_raw_parts_mut(start, items.len())
        }
    }

    /// A list of this length, of which only these first items can be read.
    pub fn list<T: Copy>(&mut self, (items, length): (&[T], usize)) -> List<'_, T> {
        assert!(items.len() <= length, "more items than the list has");
        List { readable: self.copy(items), length }
    }
}

/// A list as it is lent, of groups or of words: start and length. It may be longer than what can be
/// read of it; then the guard follows, and a read of the rest faults.
#[derive(Clone, Copy)]
pub struct List<'a, T = Group> {
    readable: &'a [T],
    length: usize,
}

/// Members as words.
pub type Words<'a> = List<'a, u32>;

impl<'a, T> List<'a, T> {
    pub fn readable(&self) -> &'a [T] {
        self.readable
    }

    pub fn start(&self) -> *const T {
        self.readable.as_ptr()
    }

    pub fn length(&self) -> usize {
        self.length
    }
}

impl<'a, T> From<&'a [T]> for List<'a, T> {
    fn from(items: &'a [T]) -> Self {
        List { readable: items, length: items.len() }
    }
}

impl Drop for Guarded {
    fn drop(&mut self) {
        // SAFETY: the mapping is this value's own.
        unsafe { munmap(self.base.cast(), self.room + PAGE) };
    }
}
