//! Books with all the jobs, resources and bytes that there can be.

use crate::draft::{book, book_at, job, Change};
use second::book::{Job, LAST_TIME, MOST_ROLLBACK, MOST_RUN, MOST_VALUE, NEVER};

pub fn books() -> Vec<Vec<u8>> {
    vec![
        largest(),
        apart(),
        extremes(),
        hub(),
        hub_turned_back(),
        two_in_turn(),
    ]
}

/// The largest book that can be accepted, 3,241 bytes: 32 jobs of 8 pieces,
/// and each of the 32 resources held. Each job waits for the one before it;
/// the curves rise and fall.
pub fn largest() -> Vec<u8> {
    let jobs: Vec<Job> = (0..32)
        .map(|number| {
            let pieces: Vec<(i64, i64, i64)> = (0..8)
                .map(|at| (60 * at + number as i64, 40 * at - 60, 3 - at))
                .collect();
            let job = job(12, 0)
                .rollback(7)
                .holds(number, 5 + number as i64 % 8, 1 + number as i64 % 7)
                .curve(&pieces, 700);
            match number {
                0 => job,
                _ => job.requests(number - 1, 4, 2),
            }
        })
        .collect();
    book(32, &jobs)
}

/// 32 jobs that share nothing, though resources are held; some of the
/// densities are alike.
fn apart() -> Vec<u8> {
    let jobs: Vec<Job> = (0..32)
        .map(|number| {
            let run = 1 + number as i64 % 5;
            job(run, 3 + 7 * number as i64 % 11).holds(31 - number, run, 1)
        })
        .collect();
    book(32, &jobs)
}

/// The longest runs at the highest values: the total is 32,000,000.
fn extremes() -> Vec<u8> {
    let jobs: Vec<Job> = (0..32)
        .map(|number| {
            job(MOST_RUN, MOST_VALUE)
                .rollback(MOST_ROLLBACK)
                .holds(number, MOST_RUN, MOST_ROLLBACK)
                .until(LAST_TIME)
        })
        .collect();
    book_at(0, 32, &jobs)
}

/// The longest plan: one job holds 31 resources, each of the others waits for
/// one of them, and a round each time runs it just far enough. 63 parts in 32
/// rounds.
fn hub() -> Vec<u8> {
    let mut jobs = vec![job(40, 1).never()];
    for number in 0..31 {
        jobs[0] = jobs[0].clone().holds(number, number as i64 + 1, NEVER);
        // The earlier in the row, the richer, so that they come one by one.
        jobs.push(job(1, 900 - 20 * number as i64).requests(number, 1, 1));
    }
    book(32, &jobs)
}

/// The same with fewer, but the holder is worth nothing and rolls back bit by
/// bit.
fn hub_turned_back() -> Vec<u8> {
    let mut jobs = vec![job(20_000, 0).rollback(40)];
    for number in 0..15 {
        jobs[0] = jobs[0].clone().holds(number, 20_000, number as i64 + 1);
        jobs.push(job(1, 900 - 20 * number as i64).requests(number, 1, 1));
    }
    book(32, &jobs)
}

/// Half the jobs are in rollback, and each of the others waits for one. What
/// nobody waits for earns nothing, so it is left.
fn two_in_turn() -> Vec<u8> {
    let jobs: Vec<Job> = (0..32)
        .map(|number| {
            if number % 2 == 0 {
                job(5, 100)
                    .in_rollback()
                    .rollback(9)
                    .holds(number, 5, 1 + number as i64 % 9)
            } else {
                job(3, 10 + number as i64).requests(number - 1, 3, NEVER)
            }
        })
        .collect();
    book(32, &jobs)
}
