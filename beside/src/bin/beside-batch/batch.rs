//! A seed's row of books, cut where the corpus program's room ends.

use beside::books::{bytes_with_count, MOST_BYTES};
use beside::made::{made, Made};

pub struct Batch {
    pub number: u64,
    pub books: Vec<Made>,
}

pub struct Batches {
    seed: u64,
    /// The place in the row that comes next.
    at: u64,
    number: u64,
    /// Books that are left out, since no batch has room for them.
    pub too_long: u64,
}

impl Batches {
    pub fn new(seed: u64) -> Batches {
        Batches {
            seed,
            at: 0,
            number: 0,
            too_long: 0,
        }
    }

    pub fn next(&mut self) -> Batch {
        let mut books = Vec::new();
        let mut room = MOST_BYTES;
        loop {
            let made = made(self.seed, self.at);
            let bytes = bytes_with_count(&made.book);
            if bytes > MOST_BYTES {
                self.too_long += 1;
            } else if bytes > room {
                break;
            } else {
                room -= bytes;
                books.push(made);
            }
            self.at += 1;
        }
        let number = self.number;
        self.number += 1;
        Batch { number, books }
    }
}
