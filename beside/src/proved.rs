//! The proved planner's C face as safe functions.
//!
//! Nothing checks the declarations below against the proved source, so they
//! stand here once and nowhere else in Rust.

/// Plans `book` into `out`. 0: accepted, and the answer stands at the start of
/// `out`. Else number x 2^32 + place of the refusal.
#[inline]
pub fn plan(book: &[u8], out: &mut [u8]) -> u64 {
    // SAFETY: both pointers are good for the lengths given with them, and a
    // `&mut` slice overlaps no other.
    unsafe { face::ilhuepatl_plan(book.as_ptr(), book.len(), out.as_mut_ptr(), out.len()) }
}

/// Where a job's record stands: start x 2^16 + end, or 0 if there is no such
/// job. For a refused book number x 2^32 + place.
#[inline]
pub fn record(book: &[u8], job: usize) -> u64 {
    // SAFETY: as above; nothing is written.
    unsafe { face::ilhuepatl_record(book.as_ptr(), book.len(), job) }
}

/// The plan's first part: job x 2^24 + mode x 2^16 + time, or 0 if the plan has
/// none. For a refused book number x 2^32 + place.
#[inline]
pub fn first(book: &[u8]) -> u64 {
    // SAFETY: as above; nothing is written.
    unsafe { face::ilhuepatl_first(book.as_ptr(), book.len()) }
}

/// What a curve's bytes are worth at `t`, as the 32 bits of two's complement, or
/// 2^31 outside the curve. Where they are refused, number x 2^32 + place.
#[inline]
pub fn worth(curve: &[u8], t: u32) -> u64 {
    // SAFETY: as above; nothing is written.
    unsafe { face::ilhuepatl_worth(curve.as_ptr(), curve.len(), t) }
}

#[cfg(not(no_archive))]
mod face {
    extern "C" {
        pub fn ilhuepatl_plan(
            book: *const u8,
            book_len: usize,
            out: *mut u8,
            out_len: usize,
        ) -> u64;
        pub fn ilhuepatl_record(book: *const u8, book_len: usize, job: usize) -> u64;
        pub fn ilhuepatl_first(book: *const u8, book_len: usize) -> u64;
        pub fn ilhuepatl_worth(curve: *const u8, curve_len: usize, t: u32) -> u64;
    }
}

/// The build linked no archive. Programs that don't ask the proved planner by
/// it work all the same.
#[cfg(no_archive)]
mod face {
    pub unsafe fn ilhuepatl_plan(_: *const u8, _: usize, _: *mut u8, _: usize) -> u64 {
        missing()
    }

    pub unsafe fn ilhuepatl_record(_: *const u8, _: usize, _: usize) -> u64 {
        missing()
    }

    pub unsafe fn ilhuepatl_first(_: *const u8, _: usize) -> u64 {
        missing()
    }

    pub unsafe fn ilhuepatl_worth(_: *const u8, _: usize, _: u32) -> u64 {
        missing()
    }

    fn missing() -> ! {
        let why = if cfg!(target_arch = "x86_64") {
            "target/staticlib/libilhuepatl.a was missing. Run \
             `tools/archive` at the repository root and build again."
        } else {
            "its archive is for x86-64 alone. On this machine beside-batch \
             compares the two planners."
        };
        eprintln!("this program was built without the proved planner: {why}");
        std::process::exit(2)
    }
}
