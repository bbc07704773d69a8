//! Lent memory with guards: a page on each side that nobody may touch, and canary bytes where the lent part doesn't reach it.

use std::ffi::c_void;

extern "C" {
    fn mmap(at: *mut c_void, length: usize, protection: i32, flags: i32, file: i32, offset: i64) -> *mut c_void;
    fn mprotect(at: *mut c_void, length: usize, protection: i32) -> i32;
}

const PAGE: usize = 4096;
// the numbers of Linux
const NOTHING: i32 = 0;
const READ_AND_WRITE: i32 = 3;
const PRIVATE_AND_ANONYMOUS: i32 = 0x22;

/// So many bytes beside the lent part are canaries.
const CANARIES: usize = 64;

/// Memory to lend from, between two guard pages.
pub struct Guarded {
    start: *mut u8,
    size: usize,
}

/// A part that is lent, flush to one of the guards.
pub struct Lent {
    start: *mut u8,
    bytes: usize,
    before: usize,
    behind: usize,
    canary: u8,
}

impl Guarded {
    pub fn new(pages: usize) -> Guarded {
        let size = pages * PAGE;
        unsafe {
            let all = mmap(std::ptr::null_mut(), size + 2 * PAGE, NOTHING, PRIVATE_AND_ANONYMOUS, -1, 0);
            assert!(all as isize != -1, "no memory");
            let start = (all as *mut u8).add(PAGE);
            assert!(mprotect(start as *mut c_void, size, READ_AND_WRITE) == 0, "no protection");
            Guarded { start, size }
        }
    }

    /// Lends so many bytes, flush to the guard behind them or to the one before them, with fresh canaries.
    pub fn lend(&mut self, bytes: usize, behind: bool, canary: u8) -> Lent {
        assert!(bytes <= self.size, "more than there is");
        let offset = if behind { self.size - bytes } else { 0 };
        let room = (self.size - bytes).min(CANARIES);
        let (before, after) = if behind { (room, 0) } else { (0, room) };
        let lent = Lent { start: unsafe { self.start.add(offset) }, bytes, before, behind: after, canary };
        unsafe {
            std::ptr::write_bytes(lent.start.sub(before), canary, before);
            std::ptr::write_bytes(lent.start.add(bytes), canary, after);
        }
        lent
    }
}

impl Lent {
    pub fn pointer(&self) -> *mut u8 {
        self.start
    }

    pub fn bytes(&mut self) -> &mut [u8] {
        unsafe { std::slice::from_raw_parts_mut(self.start, self.bytes) }
    }

    /// The same as cells; a page is a multiple of a cell, so they are aligned.
    pub fn cells(&mut self) -> &mut [i64] {
        unsafe { std::slice::from_raw_parts_mut(self.start as *mut i64, self.bytes / 8) }
    }

    pub fn canaries_live(&self) -> bool {
        let beside = unsafe {
            [std::slice::from_raw_parts(self.start.sub(self.before), self.before), std::slice::from_raw_parts(self.start.add(self.bytes), self.behind)]
        };
        beside.iter().all(|part| part.iter().all(|byte| *byte == self.canary))
    }
}
