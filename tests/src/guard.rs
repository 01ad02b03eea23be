//! Memory between two inaccessible pages, so that any read outside an input
//! ends the program, and any write to it as well; likewise of a buffer any
//! access outside it. Linux on x86-64.

use std::ffi::{c_int, c_void};

extern "C" {
    fn mmap(
        at: *mut c_void,
        n: usize,
        prot: c_int,
        flags: c_int,
        fd: c_int,
        off: i64,
    ) -> *mut c_void;
    fn mprotect(at: *mut c_void, n: usize, prot: c_int) -> c_int;
    fn munmap(at: *mut c_void, n: usize) -> c_int;
}

const NONE: c_int = 0;
const READ: c_int = 1;
const WRITE: c_int = 2;
const PRIVATE_ANONYMOUS: c_int = 0x22;
const PAGE: usize = 4096;

/// Pages to put an input in, with an inaccessible page on either side.
pub struct Guarded {
    base: *mut u8,
    room: usize,
}

/// Which inaccessible page the input touches.
#[derive(Clone, Copy, Debug)]
pub enum Side {
    Before,
    After,
}

impl Guarded {
    /// Room for at least so many bytes.
    pub fn new(bytes: usize) -> Guarded {
        let room = bytes.max(1).next_multiple_of(PAGE);
        // SAFETY: a new mapping, at a place that the system chooses.
        let base = unsafe {
            mmap(
                std::ptr::null_mut(),
                room + 2 * PAGE,
                NONE,
                PRIVATE_ANONYMOUS,
                -1,
                0,
            )
        };
        assert!(base as isize != -1, "no memory could be mapped");
        Guarded {
            base: base.cast(),
            room,
        }
    }

    /// Puts the values next to an inaccessible page, for reading only.
    pub fn place<T: Copy>(&mut self, values: &[T], side: Side) -> &[T] {
        let at = self.begin::<T>(values.len(), side);
        // SAFETY: the inner pages are mapped and writable, and the values fit.
        let placed = unsafe {
            at.copy_from_nonoverlapping(values.as_ptr(), values.len());
            std::slice::from_raw_parts(at, values.len())
        };
        self.protect(READ);
        placed
    }

    /// Lends a buffer next to an inaccessible page, with these values in it.
    pub fn lend<T: Copy>(&mut self, values: &[T], side: Side) -> &mut [T] {
        let at = self.begin::<T>(values.len(), side);
        // SAFETY: the inner pages are mapped and writable, and the values fit.
        unsafe {
            at.copy_from_nonoverlapping(values.as_ptr(), values.len());
            std::slice::from_raw_parts_mut(at, values.len())
        }
    }

    /// Where so many values begin, with the inner pages writable.
    fn begin<T>(&mut self, count: usize, side: Side) -> *mut T {
        let bytes = count * size_of::<T>();
        assert!(bytes <= self.room);
        let offset = match side {
            Side::Before => 0,
            Side::After => self.room - bytes,
        };
        self.protect(READ | WRITE);
        // SAFETY: the place is inside the mapping. It is aligned for T, since
        // pages are, and a size is a multiple of its type's alignment.
        unsafe { self.base.add(PAGE + offset).cast() }
    }

    fn protect(&self, prot: c_int) {
        // SAFETY: the inner pages belong to this mapping.
        let done = unsafe { mprotect(self.base.add(PAGE).cast(), self.room, prot) };
        assert_eq!(done, 0, "pages could not be protected");
    }
}

impl Drop for Guarded {
    fn drop(&mut self) {
        // SAFETY: the whole mapping, which nothing refers to any more.
        unsafe { munmap(self.base.cast(), self.room + 2 * PAGE) };
    }
}
