//! Wait circles of 1, 2 and 32, and what stands behind them.

use crate::draft::{book, job, Change};
use second::book::{Job, NEVER};

pub fn books() -> Vec<Vec<u8>> {
    let mut books = vec![
        rings(1, &[vec![0]]),
        rings(2, &[vec![0, 1]]),
        rings(3, &[vec![0], vec![1, 2]]),
        // The victims are listed by the lowest member of their circle, whatever
        // their own numbers are.
        rings(6, &[vec![0, 5], vec![1, 2], vec![3, 4]]),
        rings(6, &[vec![4, 5], vec![0, 3, 1]]),
        rings(32, &[(0..32).rev().collect()]),
        rings(
            16,
            &(0..8).map(|low| vec![low, 15 - low]).collect::<Vec<_>>(),
        ),
        rings(32, &(0..32).map(|number| vec![number]).collect::<Vec<_>>()),
    ];
    books.extend(behind());
    books.extend(one_can());
    books
}

/// Jobs in circles: each member holds the resource of its own number and
/// requests the next member's. The worths make the victim neither always the
/// first nor always the last.
fn rings(count: usize, rings: &[Vec<usize>]) -> Vec<u8> {
    let mut jobs: Vec<Job> = (0..count)
        .map(|number| {
            let worth = 20 + (number as i64 * 13 + 5) % 17;
            job(4, worth)
                .rollback(2 + number as i64 % 3)
                .holds(number, 4, 1 + number as i64 % 2)
        })
        .collect();
    for ring in rings {
        for (at, &number) in ring.iter().enumerate() {
            let next = ring[(at + 1) % ring.len()];
            jobs[number] = jobs[number].clone().requests(next, 3, 1);
        }
    }
    book(count, &jobs)
}

/// Jobs that wait behind a circle and are not on it; job 0 is one of them.
fn behind() -> Vec<Vec<u8>> {
    let ring = |own: usize, other: usize, worth: i64| {
        job(6, worth)
            .rollback(3)
            .holds(own, 6, 3)
            .requests(other, 6, 2)
    };
    vec![
        book(
            3,
            &[
                job(2, 70).requests(0, 2, 1),
                ring(0, 1, 20),
                ring(1, 0, 30),
                job(1, 9).requests(1, 1, 1),
            ],
        ),
        book(
            3,
            &[
                job(2, 70).requests(2, 2, 1),
                job(3, 5).holds(2, 3, 1).requests(0, 3, 1),
                ring(0, 0, 40),
            ],
        ),
    ]
}

/// All members but one are marked never.
fn one_can() -> Vec<Vec<u8>> {
    let mut books = Vec::new();
    for can in 0..3 {
        let jobs: Vec<Job> = (0..3)
            .map(|number| {
                let rollback = if number == can { 5 } else { NEVER };
                job(7, 10 + number as i64)
                    .rollback(rollback)
                    .holds(number, 7, rollback)
                    .requests((number + 1) % 3, 7, NEVER)
            })
            .collect();
        books.push(book(3, &jobs));
    }
    books
}
