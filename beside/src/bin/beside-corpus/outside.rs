//! Finishes at and beside the ends of their curves (R-7 of 02): in groups, which
//! they may keep from being candidates, and in the choice of a mode.

use crate::draft::{book, job, Change};
use second::book::{Job, NEVER};
use second::make;

pub fn books() -> Vec<Vec<u8>> {
    let mut books = before_the_last();
    books.extend(last());
    books.extend(one_course_has_none());
    books.extend(both_have_none());
    books.extend(never_outside());
    books.extend(passed_over());
    books.extend(victims());
    books.extend(made());
    books
}

/// Job 1, 5/22, waits for all that job 0 has to run.
fn behind(holder: Job) -> Vec<Job> {
    vec![holder, job(5, 22).requests(0, 5, 1)]
}

/// 10/5, which can't be rolled back.
fn stuck() -> Job {
    job(10, 5).never().holds(0, 10, NEVER)
}

/// 10/5, which takes 12 ms to roll back.
fn loose() -> Job {
    job(10, 5).rollback(12).holds(0, 10, 12)
}

fn from(holder: Job, start: i64) -> Job {
    holder.curve(&[(start, 5, 0)], 1_000)
}

/// A finish before the group's last, at 10.
fn before_the_last() -> Vec<Vec<u8>> {
    let mut books: Vec<Vec<u8>> = [8, 9, 10]
        .map(|end| book(1, &behind(stuck().until(end))))
        .into();
    books.extend([10, 11].map(|start| book(1, &behind(from(stuck(), start)))));
    // A chain of eight: each third is over when it would finish.
    let chain: Vec<Job> = (0..8)
        .map(|number| {
            let own = job(4, 9)
                .rollback(6)
                .holds(number, 4, 6)
                .until(match number {
                    2 | 5 => 5,
                    _ => 1_000,
                });
            match number {
                0 => own,
                _ => own.requests(number - 1, 4, 2),
            }
        })
        .collect();
    books.push(book(8, &chain));
    books
}

/// The finish of a last job, which the planned moment brings on.
fn last() -> Vec<Vec<u8>> {
    let mut books = Vec::new();
    for end in [13, 14] {
        books.push(book(0, &[job(10, 50).until(end), job(4, 40)]));
    }
    for start in [5, 6, 7] {
        let early = job(5, 0).curve(&[(start, 50, 0)], 1_000);
        books.push(book(0, &[early, job(1, 1)]));
    }
    books
}

/// The normal course alone, at the four moments; then the rollback course alone,
/// which takes job 2 past its termination. By density it would be -970/13 normally
/// and 0/14 in rollback.
fn one_course_has_none() -> Vec<Vec<u8>> {
    let mut books: Vec<Vec<u8>> = [8, 9, 10]
        .map(|end| book(1, &behind(loose().until(end))))
        .into();
    books.extend([10, 11].map(|start| book(1, &behind(from(loose(), start)))));
    for end in [13, 14] {
        let rising = job(4, 0)
            .holds(1, 4, 1)
            .requests(0, 4, 1)
            .curve(&[(0, -1_000, 0), (11, 0, 0)], 1_000);
        books.push(book(
            2,
            &[
                job(20, 0).rollback(7).holds(0, 6, 7),
                rising,
                job(3, 30).requests(1, 3, 1).until(end),
            ],
        ));
    }
    books
}

/// Job 1 finishes too late either way, or (at 5) by the normal course alone. Then
/// a group so far that has none: no choice after it matters.
fn both_have_none() -> Vec<Vec<u8>> {
    let mut books = Vec::new();
    for end in [2, 4, 5] {
        let late = job(4, 5).rollback(2).holds(1, 4, 2).requests(0, 4, 1);
        books.push(book(
            2,
            &[
                job(20, 0).holds(0, 6, 1),
                late.until(end),
                job(3, 30).requests(1, 3, 1),
            ],
        ));
    }
    for end in [9, 10] {
        books.push(book(
            2,
            &[
                stuck().until(end),
                job(5, 5).holds(1, 5, 1).requests(0, 5, 1),
                job(3, 60).requests(1, 3, 1),
            ],
        ));
    }
    books
}

/// A run that only frees a resource, and a rollback, of a curve that is over.
fn never_outside() -> Vec<Vec<u8>> {
    let holds = |hold: i64| job(10, 5).never().holds(0, hold, NEVER).until(0);
    vec![
        book(1, &behind(holds(9))),
        book(1, &behind(holds(10))),
        book(1, &behind(loose().in_rollback().until(0))),
        book(0, &[job(10, 5).in_rollback().until(0)]),
    ]
}

/// Beside a group that is no candidate and would be the denser one.
fn passed_over() -> Vec<Vec<u8>> {
    let beside = |worth: i64| {
        let mut jobs = behind(stuck().until(8));
        jobs.push(job(5, worth));
        book(1, &jobs)
    };
    [1, 0, -1].map(beside).into()
}

/// None counts as 0 in a loss: less than 1, more than -1, a tie with 0.
fn victims() -> Vec<Vec<u8>> {
    let ring = |worth: i64, outside: Job| {
        let one = job(4, worth).holds(0, 4, 1).requests(1, 4, 1);
        book(2, &[one, outside.holds(1, 4, 1).requests(0, 4, 1)])
    };
    let late = || job(4, 100).until(3);
    let early = || job(4, 100).curve(&[(5, 100, 0)], 9);
    vec![
        ring(1, late()),
        ring(-1, late()),
        ring(0, late()),
        ring(1, early()),
        ring(0, early()),
    ]
}

/// Made books whose plans would be others if a curve were worth zero outside, as
/// it was before R-7: two for groups that are no candidates, four for choices in
/// which one course or both have none. The seeds were looked for when R-7 landed;
/// should the maker change, these are made books like any other.
fn made() -> Vec<Vec<u8>> {
    [92, 713, 836, 1_060, 195, 344].map(make::valid).into()
}
