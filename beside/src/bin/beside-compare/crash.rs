//! Shows the book where a call crashes or does not end.
//!
//! A byte read past the fence stops the whole program by a signal. The handler
//! here still prints the book then, since without it there would be nothing to
//! try again.

use std::ptr::null_mut;
use std::sync::atomic::{AtomicPtr, AtomicUsize, Ordering::SeqCst};

/// "Each public call ends": all calls about one book together take far less.
const SECONDS_FOR_A_BOOK: u32 = 30;

static BOOK: AtomicPtr<u8> = AtomicPtr::new(null_mut());
static LENGTH: AtomicUsize = AtomicUsize::new(0);

/// Notes the book that the next calls are about and sets the clock anew. The
/// book must stay where it is until the next one is noted or the program ends.
pub fn watch(book: &[u8]) {
    LENGTH.store(0, SeqCst);
    BOOK.store(book.as_ptr().cast_mut(), SeqCst);
    LENGTH.store(book.len(), SeqCst);
    // SAFETY: it only sets this process's clock.
    unsafe { alarm(SECONDS_FOR_A_BOOK) };
}

/// Has the handler called for every signal that a fault raises.
pub fn install() {
    let action = Action {
        handler: crashed,
        mask: [0; 16],
        flags: ON_THE_SPARE_STACK,
        restorer: 0,
    };
    for number in [ILLEGAL, TRAP, ABORT, BUS, ARITHMETIC, SEGMENT, ALARM] {
        // SAFETY: the action lives through the call, and the handler only does
        // what a handler may.
        let set = unsafe { sigaction(number, &action, null_mut()) };
        assert!(set == 0, "no handler for signal {number}");
    }
}

/// Only `write` and `_exit` are called: whatever was under way when the signal
/// came may hold a lock.
extern "C" fn crashed(number: i32) {
    if number == ALARM {
        say(b"difference: no end of the calls about one book\nbook: ");
    } else {
        say(b"difference: a call crashed, signal 0x");
        say(&digits(number as u8));
        say(b"\nbook: ");
    }
    let (book, length) = (BOOK.load(SeqCst), LENGTH.load(SeqCst));
    for at in 0..length {
        // SAFETY: `watch` was given a book of that length, which still stands.
        say(&digits(unsafe { *book.add(at) }));
    }
    say(b"\n");
    // SAFETY: nothing runs after it.
    unsafe { _exit(1) }
}

fn digits(byte: u8) -> [u8; 2] {
    let digits = b"0123456789abcdef";
    [
        digits[usize::from(byte >> 4)],
        digits[usize::from(byte & 15)],
    ]
}

fn say(text: &[u8]) {
    // SAFETY: the bytes are there; a write that fails is passed over.
    unsafe { write(1, text.as_ptr(), text.len()) };
}

// Linux on x86-64.
const ILLEGAL: i32 = 4;
const TRAP: i32 = 5;
const ABORT: i32 = 6;
const BUS: i32 = 7;
const ARITHMETIC: i32 = 8;
const SEGMENT: i32 = 11;
const ALARM: i32 = 14;

/// A stack that is used up can't carry the handler; Rust keeps a spare one.
const ON_THE_SPARE_STACK: i32 = 0x0800_0000;

/// The C library's `struct sigaction`.
#[repr(C)]
struct Action {
    handler: extern "C" fn(i32),
    mask: [u64; 16],
    flags: i32,
    restorer: usize,
}

extern "C" {
    fn sigaction(number: i32, action: *const Action, old: *mut Action) -> i32;
    fn alarm(seconds: u32) -> u32;
    fn write(file: i32, bytes: *const u8, length: usize) -> isize;
    fn _exit(status: i32) -> !;
}
