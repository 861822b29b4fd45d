//! The books of 01's "Twelve to prove".

use super::{book, job, BookOf, NEVER};

/// The book of a case, by its number in 01.
pub fn case(number: usize) -> BookOf {
    match number {
        1 => book(0),
        2 => book(0).job(job(10, 50)).job(job(4, 40)),
        3 => book(0).job(job(10, 7).terminates(10)),
        4 => book(0).job(job(10, 7).terminates(9)),
        5 => holder_and_waiter(2),
        6 => book(1)
            .job(job(20, 30).holds(0, 6, 1))
            .job(job(5, 22).requests(0, 5, 1)),
        7 => holder_and_waiter(6),
        8 => book(2)
            .job(job(12, 0).never().holds(0, 3, NEVER).holds(1, 8, NEVER))
            .job(job(2, 10).requests(1, 2, 1)),
        9 => pair(false, false),
        10 => pair(false, true),
        11 => pair(true, true),
        12 => book(2)
            .job(job(2, 0).never().holds(0, 2, NEVER))
            .job(job(9, 5).never().holds(1, 3, NEVER).requests(0, 9, NEVER))
            .job(job(1, 60).never().requests(1, 1, NEVER))
            .job(job(1, 5).never().requests(0, 1, NEVER)),
        _ => panic!("01 has no case {number}"),
    }
}

/// Cases 5 and 7: job 0's rollback and held rollback are what differs.
fn holder_and_waiter(rollback: u32) -> BookOf {
    let holder = job(6, 0).rollback(rollback).holds(0, 6, rollback);
    let waiter = job(5, 22).requests(0, 5, 1);
    book(1)
        .job(holder.terminates(100))
        .job(waiter.terminates(100))
}

/// Cases 9 to 11: two jobs, each waiting for the other.
fn pair(job_0_never: bool, job_1_never: bool) -> BookOf {
    let one = |worth: i32, own: u8, other: u8, never: bool| {
        let (rollback, of_request) = if never { (NEVER, NEVER) } else { (3, 1) };
        job(10, worth)
            .rollback(rollback)
            .holds(own, 10, rollback)
            .requests(other, 4, of_request)
    };
    book(2)
        .job(one(50, 0, 1, job_0_never))
        .job(one(20, 1, 0, job_1_never))
}
