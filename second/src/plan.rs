//! The plan as a value, and the call that makes it.

use crate::book;
use crate::circles::{settle, Settled};
use crate::refusal::Refusal;
use crate::rounds;

/// One part: a job runs, normally or in rollback, for a time.
#[derive(Clone, Debug, PartialEq, Eq)]
pub struct Part {
    pub job: usize,
    pub rollback: bool,
    pub time: i64,
}

#[derive(Clone, Debug, PartialEq, Eq)]
pub struct Plan {
    pub victims: Vec<usize>,
    pub parts: Vec<Part>,
    pub rounds: usize,
    pub total: i64,
    pub end: i64,
}

/// Reads a book, sends the victims into rollback and plans all rounds.
pub fn plan(bytes: &[u8]) -> Result<Plan, Refusal> {
    let Settled { now, jobs, victims } = settle(book::read(bytes)?)?;
    Ok(rounds::all(jobs, now, victims))
}
