//! The texts that the listing program prints.

use crate::book;
use crate::first::first;
use crate::plan::{plan, Part};
use crate::refusal::Refusal;

/// The listing of a book; each line ends in a newline.
pub fn listing(bytes: &[u8]) -> String {
    lines(bytes).unwrap_or_else(refused_line)
}

/// The one line of a book's first part.
pub fn first_listing(bytes: &[u8]) -> String {
    first_line(bytes).unwrap_or_else(refused_line)
}

fn lines(bytes: &[u8]) -> Result<String, Refusal> {
    let plan = plan(bytes)?;
    let mut text = format!("victims {}", plan.victims.len());
    for victim in &plan.victims {
        text += &format!(" {victim}");
    }
    text += "\n";

    let mut start = book::read(bytes)?.now;
    for part in &plan.parts {
        text += &part_line(part, start);
        start += part.time;
    }
    text += &format!(
        "total {} end {} rounds {}\n",
        plan.total, plan.end, plan.rounds
    );
    Ok(text)
}

fn first_line(bytes: &[u8]) -> Result<String, Refusal> {
    Ok(match first(bytes)? {
        Some(part) => part_line(&part, book::read(bytes)?.now),
        None => "nothing\n".to_string(),
    })
}

/// "Job, mode (N normal, A rollback), time, start."
fn part_line(part: &Part, start: i64) -> String {
    let mode = if part.rollback { "A" } else { "N" };
    format!("part {} {mode} {} at {start}\n", part.job, part.time)
}

fn refused_line(refusal: Refusal) -> String {
    format!("refused {} at {}\n", refusal.number, refusal.place)
}
