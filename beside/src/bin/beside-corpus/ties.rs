//! Ties, and densities that are almost one.

use crate::draft::{book, job, Change};
use second::book::{Job, MOST_RUN, MOST_VALUE};

pub fn books() -> Vec<Vec<u8>> {
    let mut books = groups();
    books.extend(modes());
    books.extend(victims());
    books.extend(close());
    books
}

/// Groups of equal density: the lowest last job goes first.
fn groups() -> Vec<Vec<u8>> {
    vec![
        book(0, &[job(5, 20), job(5, 20), job(5, 20)]),
        // 4/1, 8/2, 12/3 and back.
        book(0, &[job(3, 12), job(2, 8), job(1, 4)]),
        book(0, &[job(1, 4), job(2, 8), job(3, 12)]),
        // The group of a job that waits ties with a job alone, either way round.
        book(
            1,
            &[
                job(2, 0).rollback(9).holds(0, 2, 9),
                job(4, 24).requests(0, 4, 1),
                job(3, 12),
            ],
        ),
        book(
            1,
            &[
                job(3, 12),
                job(4, 24).requests(0, 4, 1),
                job(2, 0).rollback(9).holds(0, 2, 9),
            ],
        ),
        // The holder and the one that waits for it have the same group value.
        book(
            1,
            &[
                job(4, 0).requests(0, 4, 1),
                job(4, 16).rollback(9).holds(0, 4, 9),
            ],
        ),
        // Whole quotients would tie: 22/7 and 22/6, 7/2 and 10/3.
        book(0, &[job(7, 22), job(6, 22)]),
        book(0, &[job(3, 10), job(2, 7)]),
        book(0, &[job(2, 7), job(3, 11)]),
    ]
}

/// The two courses of a choice of mode, tied and to either side.
fn modes() -> Vec<Vec<u8>> {
    let two = |hold: i64, rollback: i64, worth: i64| {
        book(
            1,
            &[
                job(hold.max(6), worth)
                    .rollback(rollback)
                    .holds(0, hold, rollback),
                job(5, 22).requests(0, 5, 1),
            ],
        )
    };
    let mut books = vec![
        two(6, 6, 0),
        two(6, 5, 0),
        two(6, 7, 0),
        // No credit for a run that only frees the resource.
        two(3, 3, 0),
        two(3, 2, 4),
        two(3, 1, 22),
        // A loss makes turning back better even where it takes longer.
        two(6, 7, -1),
        two(6, 20, -22),
    ];
    // 27/9 against 24/8: a tie of unlike fractions, since the holder's hold is all
    // of its run. Where its run is longer it earns nothing by running for the hold
    // and 24/8 is denser than 24/9.
    for run in [4, 5, 20] {
        books.push(book(
            1,
            &[
                job(run, 3).rollback(3).holds(0, 4, 3),
                job(5, 24).requests(0, 5, 1),
            ],
        ));
    }
    // Three in a row, the first decided on by what the second would earn: nothing,
    // unless its hold is all of its run.
    for hold in [4, 5] {
        books.push(book(
            2,
            &[
                job(5, 30).holds(0, 5, 1),
                job(5, 30).requests(0, 5, 1).holds(1, hold, 1),
                job(1, 30).requests(1, 1, 1),
            ],
        ));
    }
    // And the choice of the first reckons the second as normal, though the second
    // then turns back.
    books.push(book(
        2,
        &[
            job(8, 2).rollback(4).holds(0, 8, 4),
            job(9, 1).rollback(2).requests(0, 9, 3).holds(1, 9, 2),
            job(3, 40).requests(1, 3, 1),
        ],
    ));
    books.push(book(
        2,
        &[
            job(8, 2).rollback(9).holds(0, 3, 1),
            job(9, -30).rollback(2).requests(0, 9, 3).holds(1, 9, 2),
            job(3, 40).requests(1, 3, 1),
        ],
    ));
    books
}

/// Victims of equal loss: the lowest number.
fn victims() -> Vec<Vec<u8>> {
    let ring = |runs: &[(i64, i64)]| {
        let count = runs.len();
        let jobs: Vec<Job> = runs
            .iter()
            .enumerate()
            .map(|(number, &(run, worth))| {
                job(run, worth).rollback(2).holds(number, run, 2).requests(
                    (number + 1) % count,
                    run,
                    1,
                )
            })
            .collect();
        book(count, &jobs)
    };
    vec![
        ring(&[(5, 20), (5, 20)]),
        ring(&[(2, 8), (3, 12), (1, 4)]),
        // Whole quotients would tie: 10/3 is less than 7/2.
        ring(&[(2, 7), (3, 10)]),
        ring(&[(5, 0), (5, -1), (5, -1)]),
        // Losses below zero: -9/3 is less than -4/2.
        ring(&[(2, -4), (3, -9), (1, 50)]),
    ]
}

/// Fractions whose cross products differ by 1, at the largest numbers.
fn close() -> Vec<Vec<u8>> {
    let (utility, time) = (MOST_VALUE, MOST_RUN - 1);
    let mut books = Vec::new();
    for difference in [-1, 1] {
        // utility / time against another / shorter, where
        // utility x shorter - another x time is `difference`.
        let pair = (1..time).rev().find_map(|shorter| {
            let product = utility * shorter - difference;
            (product % time == 0 && product / time <= MOST_VALUE)
                .then_some((product / time, shorter))
        });
        let (another, shorter) = pair.expect("the two have no common divisor");
        let one = job(time, utility).until(200_000);
        let other = job(shorter, another).until(200_000);
        books.push(book(0, &[one.clone(), other.clone()]));
        books.push(book(0, &[other, one]));
    }
    books
}
