//! The twelve cases of 01.

use crate::draft::{book, job, Change};
use second::book::{Job, NEVER};

pub fn books() -> Vec<Vec<u8>> {
    vec![
        book(0, &[]),
        book(0, &[job(10, 50), job(4, 40)]),
        book(0, &[job(10, 7).until(10)]),
        book(0, &[job(10, 7).until(9)]),
        five(2),
        book(
            1,
            &[job(20, 30).holds(0, 6, 1), job(5, 22).requests(0, 5, 1)],
        ),
        five(6),
        book(
            2,
            &[
                job(12, 0).never().holds(0, 3, NEVER).holds(1, 8, NEVER),
                job(2, 10).requests(1, 2, 1),
            ],
        ),
        pair(false, false),
        pair(false, true),
        pair(true, true),
        book(
            2,
            &[
                job(2, 0).never().holds(0, 2, NEVER),
                job(9, 5).never().holds(1, 3, NEVER).requests(0, 9, NEVER),
                job(1, 60).never().requests(1, 1, NEVER),
                job(1, 5).never().requests(0, 1, NEVER),
            ],
        ),
    ]
}

/// Cases 5 and 7: job 0's rollback and held rollback are what differs.
fn five(rollback: i64) -> Vec<u8> {
    let holder = job(6, 0).rollback(rollback).holds(0, 6, rollback);
    let waiter = job(5, 22).requests(0, 5, 1);
    book(1, &[holder.until(100), waiter.until(100)])
}

/// Cases 9 to 11: two jobs, each waiting for the other.
fn pair(job_0_never: bool, job_1_never: bool) -> Vec<u8> {
    let one = |worth: i64, own: usize, other: usize, never: bool| -> Job {
        let (rollback, of_request) = if never { (NEVER, NEVER) } else { (3, 1) };
        job(10, worth)
            .rollback(rollback)
            .holds(own, 10, rollback)
            .requests(other, 4, of_request)
    };
    book(2, &[one(50, 0, 1, job_0_never), one(20, 1, 0, job_1_never)])
}
