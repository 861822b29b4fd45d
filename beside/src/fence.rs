//! Room that ends at a fence: the first byte past it may be neither read nor
//! written, so native code that goes too far is stopped there and then.

use std::ptr::null_mut;

// Linux on x86-64, the only machine that the archive is made for.
const PAGE: usize = 4096;
const READ_AND_WRITE: i32 = 1 | 2;
const NO_ACCESS: i32 = 0;
const PRIVATE_AND_EMPTY: i32 = 0x02 | 0x20;

extern "C" {
    fn mmap(at: *mut u8, length: usize, access: i32, kind: i32, file: i32, from: i64) -> *mut u8;
    fn mprotect(at: *mut u8, length: usize, access: i32) -> i32;
}

/// It lasts as long as the program: it is made once and never given back.
pub struct Fenced {
    first: *mut u8,
    room: usize,
}

impl Fenced {
    /// Room for at least `least` bytes before the fence.
    pub fn new(least: usize) -> Fenced {
        let room = least.div_ceil(PAGE) * PAGE;
        // SAFETY: new pages at a place that the system chooses touch nothing
        // else; the last of them becomes the fence.
        unsafe {
            let length = room + PAGE;
            let first = mmap(null_mut(), length, READ_AND_WRITE, PRIVATE_AND_EMPTY, -1, 0);
            assert!(first as isize != -1, "no room");
            assert!(mprotect(first.add(room), PAGE, NO_ACCESS) == 0, "no fence");
            Fenced { first, room }
        }
    }

    /// The last `length` bytes before the fence.
    pub fn last(&mut self, length: usize) -> &mut [u8] {
        assert!(length <= self.room, "{length} bytes don't fit");
        // SAFETY: the bytes are ours, written as zero by the system, and lent
        // by `&mut self`.
        unsafe { std::slice::from_raw_parts_mut(self.first.add(self.room - length), length) }
    }
}
