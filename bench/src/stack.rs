//! How much stack a call uses.
//!
//! The call is run on a stack of its own, every byte of which was painted with
//! a pattern before. What is no longer painted afterwards was used. From the
//! top down to the deepest such byte, less what an empty function needs, is the
//! call's depth. (Room that a function sets aside at the very bottom and never
//! writes to is not seen.)

use std::ffi::c_void;
use std::ptr::null_mut;

// Linux on x86-64, the only machine that the archive is made for.
const PAGE: usize = 4096;
const ROOM: usize = 1 << 20;
const READ_AND_WRITE: i32 = 1 | 2;
const NO_ACCESS: i32 = 0;
const PRIVATE_AND_EMPTY: i32 = 0x02 | 0x20;

extern "C" {
    fn mmap(at: *mut u8, length: usize, access: i32, kind: i32, file: i32, from: i64) -> *mut u8;
    fn mprotect(at: *mut u8, length: usize, access: i32) -> i32;
}

pub struct Painted {
    lowest: *mut u8,
    /// The depth of an empty function.
    bare: usize,
}

impl Painted {
    pub fn new() -> Painted {
        // SAFETY: new pages touch nothing else; the lowest of them may not be
        // touched, so that a call which needs more than ROOM is stopped.
        let lowest = unsafe {
            let all = mmap(
                null_mut(),
                ROOM + PAGE,
                READ_AND_WRITE,
                PRIVATE_AND_EMPTY,
                -1,
                0,
            );
            assert!(all as isize != -1, "no room");
            assert!(mprotect(all, PAGE, NO_ACCESS) == 0, "no fence");
            all.add(PAGE)
        };
        let mut painted = Painted { lowest, bare: 0 };
        painted.bare = painted.depth(&mut || {});
        painted
    }

    /// The bytes of stack that a call uses.
    pub fn depth(&mut self, call: &mut dyn FnMut()) -> usize {
        // SAFETY: the pages are ours alone and nothing else runs on them.
        let stack = unsafe { std::slice::from_raw_parts_mut(self.lowest, ROOM) };
        for (at, byte) in stack.iter_mut().enumerate() {
            *byte = paint(at);
        }
        let mut call = call;
        let argument: *mut &mut dyn FnMut() = &mut call;
        // SAFETY: the top is aligned as a call wants it, and `enter` gets back
        // just what was put into `argument`.
        unsafe { call_on(self.lowest.add(ROOM), enter, argument.cast()) };
        let untouched = stack
            .iter()
            .enumerate()
            .take_while(|&(at, &byte)| byte == paint(at))
            .count();
        (ROOM - untouched).saturating_sub(self.bare)
    }
}

/// Unlike from byte to byte, and never the zero that most stores bring.
fn paint(at: usize) -> u8 {
    (at * 59 + 101) as u8 | 1
}

/// A panic must not cross the change of stacks; an `extern "C"` function ends
/// the program instead.
extern "C" fn enter(argument: *mut c_void) {
    // SAFETY: `depth` passes a pointer to just this.
    let call = unsafe { &mut *argument.cast::<&mut dyn FnMut()>() };
    call();
}

/// Calls a function with the stack pointer set to `top`.
unsafe fn call_on(top: *mut u8, function: extern "C" fn(*mut c_void), argument: *mut c_void) {
    // r12 and r13 are the called function's to keep, so the old stack pointer
    // stands in r12 through the call.
    std::arch::asm!(
        "xchg rsp, r12",
        "call r13",
        "mov rsp, r12",
        inout("r12") top => _,
        in("r13") function,
        in("rdi") argument,
        clobber_abi("C"),
    );
}

#[cfg(test)]
mod tests {
    use super::Painted;
    use std::hint::black_box;

    #[test]
    fn a_known_depth_is_seen() {
        let mut painted = Painted::new();
        assert_eq!(painted.depth(&mut || {}), 0);
        // By reference, since without optimising a value passed on stands there
        // twice; and no constant, which would not stand on the stack at all.
        let depth = painted.depth(&mut || _ = black_box(&[black_box(1u8); 10_000]));
        assert!((10_000..10_500).contains(&depth), "{depth}");
    }
}
