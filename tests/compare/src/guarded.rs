//! Memory that ends, or starts, directly at a page that must not be touched.

use second::drafts::Dice;
use std::ffi::c_void;
use std::ptr;

extern "C" {
    fn mmap(at: *mut c_void, length: usize, protection: i32, flags: i32, file: i32, offset: i64) -> *mut c_void;
    fn mprotect(at: *mut c_void, length: usize, protection: i32) -> i32;
}

const NONE: i32 = 0;
const READ_WRITE: i32 = 1 | 2;
const PRIVATE_ANONYMOUS: i32 = 2 | 0x20;
const PAGE: usize = 4096;

/// Some pages with a forbidden page before and after them.
pub struct Guarded {
    start: *mut u8,
    capacity: usize,
}

/// Where in the pages the bytes lie.
#[derive(Clone, Copy, Debug, PartialEq)]
pub enum Against {
    End,
    Start,
}

impl Against {
    /// Mostly the end.
    pub fn drawn(dice: &mut Dice) -> Against {
        if dice.one_in(4) { Against::Start } else { Against::End }
    }
}

impl Guarded {
    /// Room for at least so many bytes.
    pub fn new(least: usize) -> Guarded {
        let capacity = least.div_ceil(PAGE).max(1) * PAGE;
        // SAFETY: fresh pages of our own, all forbidden; then all but the first and the last are opened.
        unsafe {
            let all = mmap(ptr::null_mut(), capacity + 2 * PAGE, NONE, PRIVATE_ANONYMOUS, -1, 0) as *mut u8;
            assert!(all as isize != -1, "mmap");
            let start = all.add(PAGE);
            assert_eq!(mprotect(start as *mut c_void, capacity, READ_WRITE), 0, "mprotect");
            Guarded { start, capacity }
        }
    }

    /// So many bytes directly against a forbidden page.
    pub fn part(&mut self, length: usize, against: Against) -> &mut [u8] {
        assert!(length <= self.capacity);
        let offset = if against == Against::End { self.capacity - length } else { 0 };
        // SAFETY: inside our own opened pages, which live as long as the program.
        unsafe { std::slice::from_raw_parts_mut(self.start.add(offset), length) }
    }

    /// So many numbers directly against a forbidden page.
    pub fn numbers(&mut self, length: usize, against: Against) -> &mut [u32] {
        let bytes = self.part(length * 4, against);
        // SAFETY: the same bytes; pages and the size of their numbers keep them aligned.
        unsafe { std::slice::from_raw_parts_mut(bytes.as_mut_ptr() as *mut u32, length) }
    }

    /// A copy of the bytes directly against a forbidden page.
    pub fn copy(&mut self, bytes: &[u8], against: Against) -> &mut [u8] {
        let part = self.part(bytes.len(), against);
        part.copy_from_slice(bytes);
        part
    }
}
