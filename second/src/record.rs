//! The record question: where one job's record stands in the book.

use crate::book;
use crate::refusal::Refusal;
use std::ops::Range;

/// "A refused book gives its refusal first, then a job number at or past the
/// count answers none." The question doesn't look for KNOT and never gives
/// ROOM: it stops at reading, which knows neither.
pub fn record(bytes: &[u8], job: usize) -> Result<Option<Range<usize>>, Refusal> {
    let book = book::read(bytes)?;
    Ok(book.records.get(job).cloned())
}
