//! What a part leaves behind for the rounds after it: grants, times taken and
//! requests dropped.

use crate::draft::{book, job, Change};
use second::book::{Job, LAST_TIME, NEVER};

pub fn books() -> Vec<Vec<u8>> {
    vec![
        granted(3),
        granted(30_000),
        granted(NEVER),
        never_again(),
        asked_for_what_was_granted(),
        granted_and_given_up(),
        dropped(),
        turned_back_bit_by_bit(),
        taken_from_all_holds(),
    ]
}

/// A job that waits for `resource` alone and is soon done.
fn waits(resource: usize, worth: i64) -> Job {
    job(1, worth).requests(resource, 1, 1)
}

/// The holder runs 1 ms for the first that waits, and is granted r1 by that.
/// For the second it then turns back, which takes longer by the granted
/// rollback, or can't be done any more if that is never.
fn granted(rollback: i64) -> Vec<u8> {
    let holder = job(100, 0)
        .rollback(5)
        .holds(0, 1, 5)
        .holds(2, 90, 2)
        .requests(1, 50, rollback);
    book(3, &[waits(0, 500), waits(2, 100), holder])
}

/// Once never is granted the holder can't turn back, even where a run to its
/// hold's end takes far longer than its rollback did.
fn never_again() -> Vec<u8> {
    let late = |job: Job| job.until(LAST_TIME);
    let holder = job(100, 0)
        .curve(&[(0, 0, 0), (50, -1_000_000, 0)], LAST_TIME)
        .rollback(5)
        .holds(0, 1, 5)
        .holds(2, 90, 2)
        .requests(1, 50, NEVER);
    book(3, &[late(waits(0, 500)), late(waits(2, 100)), holder])
}

/// Here the second waits for what was granted: that has the request's own hold
/// and rollback, less what the part took.
fn asked_for_what_was_granted() -> Vec<u8> {
    let holder = job(100, 0).rollback(5).holds(0, 1, 5).requests(1, 50, 3);
    book(2, &[waits(0, 500), holder, waits(1, 40)])
}

/// A job in several parts: it is granted something, gives up what it held, and
/// then others wait for what it was granted.
fn granted_and_given_up() -> Vec<u8> {
    book(
        3,
        &[
            job(9, 1).rollback(2).holds(0, 2, 2).requests(1, 6, 4),
            waits(0, 90),
            job(2, 30).requests(1, 2, NEVER),
            waits(1, 8),
        ],
    )
}

/// Job 0 turns back for r0 and drops its request for r2, which job 1 is then
/// granted. If job 0 had kept it, it would wait for job 1 when r1 is asked for.
fn dropped() -> Vec<u8> {
    let turns = job(20, 0)
        .rollback(10)
        .holds(0, 15, 1)
        .holds(1, 18, 10)
        .requests(2, 5, 2);
    let takes = job(10, 0).never().holds(3, 2, NEVER).requests(2, 10, NEVER);
    book(4, &[turns, takes, waits(0, 100), waits(3, 60), waits(1, 9)])
}

/// Each turn takes from all held rollbacks and from the job's own: r1 comes
/// free with r0, and what is left of r2's is shorter.
fn turned_back_bit_by_bit() -> Vec<u8> {
    let holder = job(500, 0)
        .rollback(9)
        .holds(0, 400, 4)
        .holds(1, 400, 3)
        .holds(2, 400, 9);
    book(3, &[holder, waits(0, 90), waits(1, 60), waits(2, 30)])
}

/// Each run takes from all holds, stopping at zero.
fn taken_from_all_holds() -> Vec<u8> {
    let holder = job(500, 7)
        .never()
        .holds(0, 4, NEVER)
        .holds(1, 3, NEVER)
        .holds(2, 9, NEVER);
    book(3, &[holder, waits(0, 90), waits(1, 60), waits(2, 30)])
}
