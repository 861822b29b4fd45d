//! A difference between the two planners.

use crate::hex::hex;
use crate::made::Made;
use std::panic::{catch_unwind, AssertUnwindSafe};

/// What was asked and what each of the two gave, in words.
pub struct Difference {
    pub question: String,
    pub second: String,
    pub proved: String,
}

impl Difference {
    /// Prints it with the book that it was met in.
    pub fn print(&self, row_seed: u64, made: &Made) {
        println!(
            "difference at book {} of seed {row_seed} ({}, its own seed {}): {}",
            made.at, made.kind, made.seed, self.question
        );
        println!("second planner: {}", self.second);
        println!("proved planner: {}", self.proved);
        println!("book of {} bytes: {}", made.book.len(), hex(&made.book));
    }
}

/// Asserts that two answers are one; the words are made only where they are
/// needed.
pub fn same<T: PartialEq>(
    second: T,
    proved: T,
    question: impl FnOnce() -> String,
    words: impl Fn(T) -> String,
) -> Result<(), Difference> {
    if second == proved {
        return Ok(());
    }
    Err(Difference {
        question: question(),
        second: words(second),
        proved: words(proved),
    })
}

/// A panic (a sum that leaves its type, say) is shown with its book, like any
/// difference.
pub fn caught<T>(check: impl FnOnce() -> Result<T, Difference>) -> Result<T, Difference> {
    catch_unwind(AssertUnwindSafe(check)).unwrap_or_else(|_| {
        Err(Difference {
            question: "a call of the second planner panicked".to_string(),
            second: "the panic's message stands above".to_string(),
            proved: "not asked any further".to_string(),
        })
    })
}
