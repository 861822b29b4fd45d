//! Long chains of waits.

use crate::draft::{book, job, Change};
use second::book::{Job, NEVER};

pub fn books() -> Vec<Vec<u8>> {
    let plain = |_: usize, job: Job| job;
    let mut books = vec![
        chain(32, plain),
        backwards(chain_of(16, plain)),
        // Every third can't be rolled back.
        chain(16, |number, job| match number % 3 {
            0 => never(job),
            _ => job,
        }),
        // The first is in rollback and must turn back before all others.
        chain(12, |number, mut job| {
            job.in_rollback = number == 0;
            job
        }),
        // None but the last is worth anything, and turning back is quick.
        chain(32, |number, job| match number {
            31 => job.curve(&[(0, 900, 0)], 1_000),
            _ => job.curve(&[(0, 0, 0)], 1_000),
        }),
    ];
    for count in [3, 5, 8] {
        books.push(chain(count, plain));
        books.push(backwards(chain_of(count, plain)));
    }
    books
}

/// Each job holds one resource and requests the one of the job before it.
fn chain_of(count: usize, change: impl Fn(usize, Job) -> Job) -> Vec<Job> {
    (0..count)
        .map(|number| {
            let run = 3 + number as i64 % 4;
            let rollback = 1 + number as i64 % 5;
            let plain = job(run, 2 + 5 * number as i64).rollback(rollback).holds(
                number,
                run - number as i64 % 3,
                rollback,
            );
            let waits = match number {
                0 => plain,
                _ => plain.requests(number - 1, 1 + number as i64 % 3, 1 + number as i64 % 2),
            };
            change(number, waits)
        })
        .collect()
}

fn chain(count: usize, change: impl Fn(usize, Job) -> Job) -> Vec<u8> {
    book(count, &chain_of(count, change))
}

/// The same jobs with their numbers turned round.
fn backwards(mut jobs: Vec<Job>) -> Vec<u8> {
    jobs.reverse();
    book(jobs.len(), &jobs)
}

fn never(mut job: Job) -> Job {
    for held in &mut job.held {
        held.rollback = NEVER;
    }
    job.never()
}
