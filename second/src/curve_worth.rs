//! What the bytes of one curve are worth at a moment (02, R-4), or none outside
//! of it.

use crate::book;
use crate::refusal::Refusal;
use crate::worth::worth;

/// The bytes run from a curve's piece count to its termination and hold nothing
/// else. They are judged as they would be in a book, so the refusals are CUT,
/// RANGE and TAIL; their places count from the first of these bytes.
pub fn curve_worth(bytes: &[u8], t: u32) -> Result<Option<i64>, Refusal> {
    let curve = book::read_curve(bytes)?;
    Ok(worth(&curve, i64::from(t)))
}
