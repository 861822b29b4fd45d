//! The second planner with the same C face as the proved one, under other
//! names, so that a harness in C can ask both.

use second::{Part, Refusal};
use std::slice::{from_raw_parts, from_raw_parts_mut};

/// 0: accepted, and the answer stands at the start of `out`. Else number x
/// 2^32 + place, and nothing is written.
///
/// # Safety
/// `book` points to `book_len` bytes, and `out` to `out_len` others that may
/// be written.
#[no_mangle]
pub unsafe extern "C" fn second_plan(
    book: *const u8,
    book_len: usize,
    out: *mut u8,
    out_len: usize,
) -> u64 {
    let book = from_raw_parts(book, book_len);
    let out = from_raw_parts_mut(out, out_len);
    match second::answer(book, out) {
        Ok(_) => 0,
        Err(refusal) => code(refusal),
    }
}

/// Start x 2^16 + end of the job's record, or 0 if there is no such job. For a
/// refused book number x 2^32 + place.
///
/// # Safety
/// `book` points to `book_len` bytes.
#[no_mangle]
pub unsafe extern "C" fn second_record(book: *const u8, book_len: usize, job: usize) -> u64 {
    match second::record(from_raw_parts(book, book_len), job) {
        Ok(Some(range)) => ((range.start as u64) << 16) + range.end as u64,
        Ok(None) => 0,
        Err(refusal) => code(refusal),
    }
}

/// Job x 2^24 + mode x 2^16 + time of the plan's first part, or 0 if it has
/// none. For a refused book number x 2^32 + place.
///
/// # Safety
/// `book` points to `book_len` bytes.
#[no_mangle]
pub unsafe extern "C" fn second_first(book: *const u8, book_len: usize) -> u64 {
    match second::first(from_raw_parts(book, book_len)) {
        Ok(Some(part)) => word(&part),
        Ok(None) => 0,
        Err(refusal) => code(refusal),
    }
}

/// The worth of a curve's bytes at `t`, as 32 bits of two's complement, or 2^31
/// outside the curve. Where they are refused, number x 2^32 + place.
///
/// # Safety
/// `curve` points to `curve_len` bytes.
#[no_mangle]
pub unsafe extern "C" fn second_worth(curve: *const u8, curve_len: usize, t: u32) -> u64 {
    match second::curve_worth(from_raw_parts(curve, curve_len), t) {
        Ok(Some(worth)) => u64::from(worth as i32 as u32),
        Ok(None) => 1 << 31,
        Err(refusal) => code(refusal),
    }
}

fn word(part: &Part) -> u64 {
    ((part.job as u64) << 24) + (u64::from(part.rollback) << 16) + part.time as u64
}

fn code(refusal: Refusal) -> u64 {
    (u64::from(refusal.number) << 32) + refusal.place as u64
}
