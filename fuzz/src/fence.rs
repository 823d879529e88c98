//! Lent memory between two pages that cannot be touched: a call that reads or writes past the end that stands at the fence is stopped by the
//! machine at once.

use std::ffi::{c_int, c_void};

const PAGE: usize = 4096;
const NONE: c_int = 0;
const READ_WRITE: c_int = 3;
const PRIVATE_AND_EMPTY: c_int = 0x22;

extern "C" {
    fn mmap(address: *mut c_void, length: usize, protection: c_int, flags: c_int, file: c_int, offset: i64) -> *mut c_void;
    fn mprotect(address: *mut c_void, length: usize, protection: c_int) -> c_int;
}

/// Which end of the lent memory stands at a fence.
#[derive(Clone, Copy, Debug, PartialEq, Eq)]
pub enum Side {
    Begin,
    End,
}

pub struct Fence {
    begin: *mut u8,
    capacity: usize,
}

impl Fence {
    /// Room for so many bytes. It is never given back: there are four for the whole run.
    pub fn new(capacity: usize) -> Fence {
        let capacity = capacity.next_multiple_of(PAGE);
        // SAFETY: a new mapping of its own; its first and last page are then closed.
        unsafe {
            let all = mmap(std::ptr::null_mut(), capacity + 2 * PAGE, READ_WRITE, PRIVATE_AND_EMPTY, -1, 0) as *mut u8;
            assert!(all as isize != -1, "no memory for a fence");
            let begin = all.add(PAGE);
            assert_eq!(mprotect(all.cast(), PAGE, NONE), 0);
            assert_eq!(mprotect(begin.add(capacity).cast(), PAGE, NONE), 0);
            Fence { begin, capacity }
        }
    }

    pub fn bytes(&mut self, length: usize, side: Side) -> &mut [u8] {
        // SAFETY: see `start`; bytes need no alignment.
        unsafe { std::slice::from_raw_parts_mut(self.start(length, side), length) }
    }

    pub fn words(&mut self, length: usize, side: Side) -> &mut [u64] {
        // SAFETY: see `start`; both ends are at a page, so that whole words are aligned from either.
        unsafe { std::slice::from_raw_parts_mut(self.start(8 * length, side).cast(), length) }
    }

    /// Where so many bytes begin; they lie within the mapping.
    fn start(&self, length: usize, side: Side) -> *mut u8 {
        assert!(length <= self.capacity, "more is lent than there is room for");
        match side {
            Side::Begin => self.begin,
            // SAFETY: the length is within the mapping.
            Side::End => unsafe { self.begin.add(self.capacity - length) },
        }
    }
}
