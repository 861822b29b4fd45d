//! Each field at and beside the ends of what it may be.

use crate::draft::{book, book_at, job, with_field, Change};
use second::book::{Job, LAST_TIME, MOST_ROLLBACK, MOST_RUN, MOST_SLOPE, MOST_VALUE, NEVER};

pub fn books() -> Vec<Vec<u8>> {
    let mut books = each_field();
    books.extend(no_request());
    books.extend(marked_never());
    books.extend(longest_times());
    books.extend(ends_of_pieces());
    books
}

/// A job with a request, two held resources and two pieces: no two of its
/// numbers that limit each other are alike.
fn sample() -> Job {
    job(50, 0)
        .rollback(20)
        .requests(3, 30, 15)
        .holds(1, 40, 20)
        .holds(2, 10, 5)
        .curve(&[(10, 500, 2), (40, 300, -3)], 200)
}

/// One field of the sample's book at a time: its place and width, and the
/// values that it takes.
fn each_field() -> Vec<Vec<u8>> {
    let whole = book_at(7, 4, &[sample()]);
    let last = LAST_TIME;
    let value = [MOST_VALUE, MOST_VALUE + 1, -MOST_VALUE, -MOST_VALUE - 1];
    let slope = [MOST_SLOPE, MOST_SLOPE + 1, -MOST_SLOPE, -MOST_SLOPE - 1];
    // The ends of what the field's own bytes can say.
    let (most, least) = (i64::from(i32::MAX), i64::from(i32::MIN));
    let (steepest, lowest) = (i64::from(i16::MAX), i64::from(i16::MIN));
    let fields: [(usize, usize, &[i64]); 23] = [
        (3, 1, &[0, 2, 32]),                          // jobs
        (4, 1, &[0, 2, 3, 32]),                       // resources
        (5, 4, &[0, last, last + 1]),                 // now
        (9, 1, &[1, 2, 255]),                         // mode
        (10, 2, &[0, 29, 30, 40, 60_000, 60_001]),    // run time
        (12, 2, &[0, 19, 30_000, 30_001, -2, NEVER]), // rollback time
        (14, 1, &[0, 1, 4, 254, 255]),                // requested
        (15, 2, &[0, 1, 50, 51]),                     // its hold
        (17, 2, &[0, 1, 30_000, 30_001, -2, NEVER]),  // its rollback
        (19, 1, &[0, 1, 3, 32, 33, 255]),             // held count
        (20, 1, &[0, 2, 3, 4, 255]),                  // held
        (21, 2, &[0, 1, 50, 51]),                     // its hold
        (23, 2, &[0, 1, 21, -2, NEVER]),              // its rollback
        (25, 1, &[0, 1, 4]),                          // held, the second
        (28, 2, &[0, 20, 21]),                        // its rollback
        (30, 1, &[0, 1, 3, 8, 9, 255]),               // piece count
        (31, 4, &[0, 39, 40, last + 1, -1]),          // start
        (35, 4, &value),                              // value
        (39, 2, &slope),                              // slope
        (41, 4, &[9, 10, 11, 200, 201, last + 1]),    // second start
        (45, 4, &[most, least]),                      // second value
        (49, 2, &[steepest, lowest]),                 // second slope
        (51, 4, &[39, 40, last, last + 1, -1]),       // termination
    ];
    let mut books = Vec::new();
    for (place, width, values) in fields {
        for &value in values {
            books.push(with_field(whole.clone(), place, width, value));
        }
    }
    books.push(whole);
    books
}

/// "With 255 both are 0."
fn no_request() -> Vec<Vec<u8>> {
    let whole = book(0, &[job(9, 5)]);
    vec![
        with_field(whole.clone(), 15, 2, 1),
        with_field(whole.clone(), 17, 2, 1),
        with_field(whole.clone(), 17, 2, NEVER),
        // With no resource there is nothing to request or to hold.
        book(0, &[job(9, 5).requests(0, 1, 1)]),
        book(0, &[job(9, 5).holds(0, 1, 1)]),
    ]
}

/// A held rollback is never exactly when the job's is.
fn marked_never() -> Vec<Vec<u8>> {
    let one = |rollback: i64| book(1, &[job(9, 5).never().holds(0, 9, rollback)]);
    vec![
        one(NEVER),
        one(NEVER - 1),
        one(1),
        one(0),
        book(1, &[job(9, 5).never().requests(0, 9, 1)]),
        book(1, &[job(9, 5).never().requests(0, 9, NEVER)]),
        // The request may be never alone.
        book(2, &[job(9, 5).holds(0, 9, 1).requests(1, 9, NEVER)]),
    ]
}

/// Holds and held rollbacks where run time and rollback time are the longest.
fn longest_times() -> Vec<Vec<u8>> {
    let longest = || job(MOST_RUN, 5).rollback(MOST_ROLLBACK);
    let mut books = Vec::new();
    for past in [0, 1] {
        books.push(book(1, &[longest().requests(0, MOST_RUN + past, 1)]));
        books.push(book(1, &[longest().holds(0, MOST_RUN + past, 1)]));
        books.push(book(1, &[longest().holds(0, 1, MOST_ROLLBACK + past)]));
    }
    books
}

/// The value where a piece ends, on the limit and 1 past it.
fn ends_of_pieces() -> Vec<Vec<u8>> {
    let mut books = Vec::new();
    let mut add = |pieces: &[(i64, i64, i64)], termination: i64| {
        books.push(book(0, &[job(3, 0).curve(pieces, termination)]));
    };
    for sign in [1, -1] {
        let near = sign * 999_000;
        let slope = sign * 100;
        for past in [0, 1] {
            add(&[(0, near, slope), (11 + past, 0, 0)], 20);
            add(&[(0, near, slope)], 10 + past);
            add(&[(0, 0, 0), (5, near, slope)], 15 + past);
        }
        // Judged before the next piece's own value.
        add(&[(0, near, slope), (12, 2_000_000, 0)], 20);
        // A piece of 1 ms ends where it starts.
        add(&[(0, sign * MOST_VALUE, sign * MOST_SLOPE), (1, 0, 0)], 20);
        add(&[(0, sign * MOST_VALUE, sign * MOST_SLOPE)], 0);
        // From one limit to the other at the steepest, and the widest product.
        add(&[(0, -sign * MOST_VALUE, sign * MOST_SLOPE)], 2_000);
        add(&[(0, -sign * MOST_VALUE, sign * MOST_SLOPE)], 2_001);
        add(&[(0, 0, sign * MOST_SLOPE)], LAST_TIME);
        add(&[(0, 0, sign * MOST_SLOPE), (LAST_TIME, 0, 0)], LAST_TIME);
    }
    books
}
