//! Every refusal that a book can bring, at its first, its last and a middle
//! place. (ROOM is no matter of the book, so it can't stand here.)

use crate::draft::{book, book_at, cut, job, with_field, with_length, with_tail, Change};
use crate::full::largest;
use second::book::{Job, LAST_TIME, NEVER};

pub fn books() -> Vec<Vec<u8>> {
    let mut books = Vec::new();
    books.extend(size());
    books.extend(version());
    books.extend(count());
    books.extend(cuts());
    books.extend(range());
    books.extend(twice());
    books.extend(mode());
    books.extend(tail());
    books.extend(knot());
    books
}

fn row(count: usize) -> Vec<Job> {
    vec![job(9, 5); count]
}

fn size() -> Vec<Vec<u8>> {
    let mut books = vec![vec![]];
    for length in [1, 2, 8] {
        books.push(vec![0; length]);
        books.push(with_length(vec![0; length.max(2)]));
    }
    for wrong in [0, 8, 10, 0x0900, 65_535] {
        books.push(with_field(book(0, &[]), 0, 2, wrong));
    }
    let two = book(0, &row(2));
    for wrong in [-1, 1, 256] {
        let length = two.len() as i64;
        books.push(with_field(two.clone(), 0, 2, length + wrong));
    }
    // SIZE before VERSION, COUNT and now.
    books.push(vec![0, 8, 9, 99, 99, 255, 0, 0, 0]);
    books
}

fn version() -> Vec<Vec<u8>> {
    let mut books: Vec<Vec<u8>> = [0, 2, 255]
        .into_iter()
        .map(|version| with_field(book(0, &row(1)), 2, 1, version))
        .collect();
    // VERSION before COUNT and now.
    books.push(vec![0, 9, 2, 33, 33, 255, 0, 0, 0]);
    books
}

fn count() -> Vec<Vec<u8>> {
    let mut books = Vec::new();
    for many in [33, 255] {
        books.push(with_field(book(0, &row(1)), 3, 1, many));
        books.push(with_field(book(0, &row(1)), 4, 1, many));
    }
    // Jobs before resources, resources before now.
    books.push(vec![0, 9, 1, 33, 33, 255, 0, 0, 0]);
    books.push(vec![0, 9, 1, 32, 33, 255, 0, 0, 0]);
    books
}

/// One byte less than each field of a job takes, and the first and the last
/// place that there are.
fn cuts() -> Vec<Vec<u8>> {
    let sample = job(9, 1)
        .rollback(5)
        .requests(3, 9, 5)
        .holds(1, 9, 5)
        .holds(2, 1, 1)
        .curve(&[(0, 5, 0), (9, 6, 1)], 10);
    let whole = book(4, &[job(9, 1), sample]);
    let widths = [
        1, 2, 2, 1, 2, 2, 1, // up to the held count
        1, 2, 2, 1, 2, 2, // held
        1, 4, 4, 2, 4, 4, 2, 4, // the curve
    ];
    let mut books = Vec::new();
    let mut end = 35;
    for width in widths {
        end += width;
        books.push(cut(&whole, end - 1));
    }
    assert_eq!(end, whole.len(), "the widths are those of job 1");
    // CUT before RANGE: half a run time of 0.
    books.push(cut(&book(0, &[job(0, 1)]), 11));
    books.push(with_field(book(0, &[]), 3, 1, 32));
    books.push(with_field(book(0, &row(5)), 3, 1, 6));
    let largest = largest();
    books.push(cut(&largest, largest.len() - 1));
    books
}

/// The first place is now's, the last the last termination's. The fields
/// between them are in `fields`.
fn range() -> Vec<Vec<u8>> {
    let largest = largest();
    let last = largest.len() - 4;
    let mut middle = row(5);
    middle[4].run = 60_001;
    vec![
        book_at(LAST_TIME + 1, 0, &row(1)),
        book_at(-1, 0, &[]),
        // Now comes before the jobs.
        book_at(LAST_TIME + 1, 0, &[job(0, 1)]),
        book(0, &middle),
        with_field(largest, last, 4, LAST_TIME + 1),
    ]
}

fn twice() -> Vec<Vec<u8>> {
    let held = || job(9, 1).holds(2, 9, 1);
    let mut books = vec![
        // The first place that there is: the second entry of job 0.
        book(4, &[held().holds(2, 9, 1)]),
        book(4, &[held().holds(2, 0, 0)]),
        book(4, &[held().holds(4, 9, 1)]),
        book(4, &[held(), held()]),
        book(4, &[held(), job(9, 1), job(9, 1), held()]),
        // A hold out of range comes first.
        book(4, &[job(9, 1).holds(2, 10, 1).holds(2, 9, 1)]),
    ];
    // The last place: all 32 are held before, and job 31 holds one again. The
    // curves have 8 pieces, so that no book has it further back.
    let pieces: Vec<(i64, i64, i64)> = (0..8).map(|at| (at, 1, 0)).collect();
    let mut jobs = vec![job(9, 1).curve(&pieces, 9); 32];
    for resource in 0..32 {
        jobs[31] = jobs[31].clone().holds(resource, 9, 1);
    }
    let last = jobs[31].held.pop().expect("32 were pushed");
    jobs[0].held.push(last);
    jobs[31] = jobs[31].clone().holds(0, 9, 1);
    books.push(book(32, &jobs));
    books
}

fn mode() -> Vec<Vec<u8>> {
    let asks = || job(9, 1).in_rollback().requests(0, 9, 1);
    let never = || job(9, 1).in_rollback().never();
    let mut middle = row(5);
    middle[4] = asks();
    let mut books = vec![
        book(4, &[asks()]),
        book(4, &[never()]),
        book(4, &[never().requests(0, 9, NEVER)]),
        book(4, &[never().holds(0, 9, NEVER)]),
        // After the job's last field, before the next job and before TAIL.
        book(4, &[never().until(-1)]),
        book(4, &[never(), job(0, 1)]),
        with_tail(book(4, &[asks()]), &[0]),
        book(4, &middle),
    ];
    // The last place: job 31 of the largest book, the resources held before.
    let pieces: Vec<(i64, i64, i64)> = (0..8).map(|at| (at, 1, 0)).collect();
    let mut jobs = vec![job(9, 1).curve(&pieces, 9); 32];
    for resource in 0..32 {
        jobs[resource % 31] = jobs[resource % 31].clone().holds(resource, 9, 1);
    }
    jobs[31] = jobs[31].clone().in_rollback().never();
    books.push(book(32, &jobs));
    books
}

fn tail() -> Vec<Vec<u8>> {
    vec![
        with_tail(book(0, &[]), &[0]),
        with_tail(book(0, &[]), &[255; 40]),
        with_tail(book(0, &row(1)), &[1, 2, 3]),
        with_tail(book(0, &row(5)), &[0]),
        with_tail(largest(), &[0]),
        // A job more than the count says.
        with_field(book(0, &row(2)), 3, 1, 1),
        // Before KNOT.
        with_tail(book(1, &[stuck(0, 0)]), &[0]),
    ]
}

/// A job that can't be rolled back, holds one and asks for another.
fn stuck(own: usize, other: usize) -> Job {
    job(9, 1).never().holds(own, 9, NEVER).requests(other, 1, 1)
}

fn knot() -> Vec<Vec<u8>> {
    let loose = |own: usize, other: usize| job(9, 1).holds(own, 9, 1).requests(other, 1, 1);
    let after = |count: usize| {
        let mut jobs = row(count);
        jobs.push(stuck(5, 5));
        book(32, &jobs)
    };
    vec![
        book(1, &[stuck(0, 0)]),
        after(15),
        after(31),
        book(2, &[stuck(0, 1), stuck(1, 0)]),
        // Job 0 waits behind the circle of 1 and 3 and is not on it; job 2 is a
        // circle that has a victim.
        book(
            4,
            &[
                job(9, 1).never().requests(0, 1, 1),
                stuck(0, 1),
                loose(2, 2),
                stuck(1, 0),
            ],
        ),
        // Two knots, 1 with 4 and 2 with 3.
        book(
            5,
            &[
                job(9, 1),
                stuck(1, 4),
                stuck(2, 3),
                stuck(3, 2),
                stuck(4, 1),
            ],
        ),
        // A circle with a victim stands before the knot, and one after it.
        book(4, &[loose(0, 1), loose(1, 0), stuck(2, 2), loose(3, 3)]),
    ]
}
