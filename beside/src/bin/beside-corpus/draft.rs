//! A short way to write books down. It knows no rule, so that a book can break
//! any of them.

use second::book::{Claim, Curve, Job, Piece, NEVER};
use second::make::bytes_of;

/// A book at now 0.
pub fn book(resources: usize, jobs: &[Job]) -> Vec<u8> {
    book_at(0, resources, jobs)
}

pub fn book_at(now: i64, resources: usize, jobs: &[Job]) -> Vec<u8> {
    bytes_of(now, resources, jobs)
}

/// A normal job that shares nothing, its curve flat from 0 to 1,000 and its
/// rollback time 1, as in the cases of 01.
pub fn job(run: i64, worth: i64) -> Job {
    Job {
        in_rollback: false,
        run,
        rollback: 1,
        request: None,
        held: Vec::new(),
        curve: Curve {
            pieces: Vec::new(),
            termination: 0,
        },
    }
    .curve(&[(0, worth, 0)], 1_000)
}

/// Changes to a job, each giving the changed job.
pub trait Change {
    fn rollback(self, time: i64) -> Job;
    fn never(self) -> Job;
    fn in_rollback(self) -> Job;
    fn requests(self, resource: usize, hold: i64, rollback: i64) -> Job;
    fn holds(self, resource: usize, hold: i64, rollback: i64) -> Job;
    /// Replaces the curve by pieces of start, value and slope.
    fn curve(self, pieces: &[(i64, i64, i64)], termination: i64) -> Job;
    fn until(self, termination: i64) -> Job;
}

impl Change for Job {
    fn rollback(mut self, time: i64) -> Job {
        self.rollback = time;
        self
    }

    fn never(self) -> Job {
        self.rollback(NEVER)
    }

    fn in_rollback(mut self) -> Job {
        self.in_rollback = true;
        self
    }

    fn requests(mut self, resource: usize, hold: i64, rollback: i64) -> Job {
        self.request = Some(Claim {
            resource,
            hold,
            rollback,
        });
        self
    }

    fn holds(mut self, resource: usize, hold: i64, rollback: i64) -> Job {
        self.held.push(Claim {
            resource,
            hold,
            rollback,
        });
        self
    }

    fn curve(mut self, pieces: &[(i64, i64, i64)], termination: i64) -> Job {
        self.curve = Curve {
            pieces: pieces
                .iter()
                .map(|&(start, value, slope)| Piece {
                    start,
                    value,
                    slope,
                })
                .collect(),
            termination,
        };
        self
    }

    fn until(mut self, termination: i64) -> Job {
        self.curve.termination = termination;
        self
    }
}

/// The bytes with one field overwritten by the low bytes of a number.
pub fn with_field(mut bytes: Vec<u8>, place: usize, width: usize, value: i64) -> Vec<u8> {
    bytes[place..place + width].copy_from_slice(&value.to_be_bytes()[8 - width..]);
    bytes
}

/// The first `length` bytes, their length field made right.
pub fn cut(bytes: &[u8], length: usize) -> Vec<u8> {
    with_length(bytes[..length].to_vec())
}

/// The bytes and then more, their length field made right.
pub fn with_tail(mut bytes: Vec<u8>, tail: &[u8]) -> Vec<u8> {
    bytes.extend(tail);
    with_length(bytes)
}

/// The bytes with their length field made right.
pub fn with_length(bytes: Vec<u8>) -> Vec<u8> {
    let length = bytes.len() as i64;
    with_field(bytes, 0, 2, length)
}
