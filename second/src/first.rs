//! The first part alone (02, R-2).

use crate::book;
use crate::circles::{settle, Settled};
use crate::plan::Part;
use crate::refusal::Refusal;
use crate::rounds;

/// "A question that settles the circles, makes one round, and answers the first
/// part or nothing." It lends no output, so it never gives ROOM.
pub fn first(bytes: &[u8]) -> Result<Option<Part>, Refusal> {
    let Settled { now, jobs, .. } = settle(book::read(bytes)?)?;
    let group = rounds::round(&jobs, now);
    Ok(group.and_then(|group| group.parts.into_iter().next()))
}
