//! Finishing at and beside each moment where a curve changes.

use crate::draft::{book, book_at, job, Change};
use second::book::{LAST_TIME, MOST_RUN};

pub fn books() -> Vec<Vec<u8>> {
    // Pieces from 4, 6 and 9, termination at 12: each run time finishes at
    // another moment, and no two of these moments are worth the same.
    let pieces = [(4, 30, 1), (6, 50, -2), (9, 100, 3)];
    let mut books: Vec<Vec<u8>> = [3, 4, 5, 6, 8, 9, 12, 13]
        .into_iter()
        .map(|run| book(0, &[job(run, 0).curve(&pieces, 12)]))
        .collect();
    // The planned moment moves on: the second job finishes a piece later.
    books.push(book(
        0,
        &[job(3, 90).until(3), job(6, 0).curve(&pieces, 12)],
    ));
    // Worth exactly zero is not above zero; below zero is no gain either, but a
    // richer group may carry it.
    books.push(book(0, &[job(5, 0), job(5, -1), job(5, 1)]));
    books.push(book(0, &[job(5, 10).curve(&[(0, 10, -2)], 9)]));
    books.push(book(
        1,
        &[
            job(5, -3).rollback(9).holds(0, 5, 9),
            job(5, 9).requests(0, 5, 1),
        ],
    ));
    // Moments past the last time that a book can name.
    books.push(book_at(LAST_TIME, 0, &[job(1, 5).until(LAST_TIME)]));
    books.push(book_at(LAST_TIME - 1, 0, &[job(1, 5).until(LAST_TIME)]));
    books.push(book_at(
        LAST_TIME - MOST_RUN,
        0,
        &[
            job(MOST_RUN, 5).until(LAST_TIME),
            job(MOST_RUN, 9).until(LAST_TIME),
        ],
    ));
    books.push(late());
    books
}

/// A plan that would end after the last time that a book can name, if a job that
/// is too late could be planned. For the third job alone the first runs, since
/// that is denser; for the fourth, which takes long and finishes too late, both
/// courses have none, and its group is no candidate.
fn late() -> Vec<u8> {
    let now = LAST_TIME - 16;
    let flat = |value: i64| [(0, value, 0)];
    let first = job(20, 0).rollback(5).holds(0, 1, 5);
    let second = job(20, 0).rollback(10).requests(0, 1, 1).holds(1, 1, 10);
    let third = job(1, 0).requests(1, 1, 1).holds(2, 1, 1);
    let fourth = job(60_000, 0).requests(2, 1, 1);
    let rising = [
        (now, 40, 0),
        (now + 4, 90, 0),
        (now + 8, 0, 0),
        (LAST_TIME, 1_000_000, 0),
    ];
    book_at(
        now,
        3,
        &[
            first.curve(&flat(40), LAST_TIME),
            second.curve(&flat(0), LAST_TIME),
            third.curve(&rising, LAST_TIME),
            fourth.curve(&flat(5), LAST_TIME),
        ],
    )
}
