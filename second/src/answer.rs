//! The answer's bytes.

use crate::plan::{plan, Plan};
use crate::refusal::{Refusal, ROOM};

/// The longest answer: 32 victims and 96 parts.
pub const MOST_BYTES: usize = 430;

/// Plans a book into `out` and gives the answer's length. Later bytes of `out`
/// keep their values; on a refusal all of them do.
pub fn answer(book: &[u8], out: &mut [u8]) -> Result<usize, Refusal> {
    if out.len() < MOST_BYTES {
        return Err(Refusal::new(ROOM, 0));
    }
    let bytes = bytes_of(&plan(book)?);
    out[..bytes.len()].copy_from_slice(&bytes);
    Ok(bytes.len())
}

/// "Length 2, version 1, victim count 1, victims 1 each, part count 1, parts
/// (job 1, mode 1 as in the book, time 2), rounds 1, total 4 signed, end 4."
pub fn bytes_of(plan: &Plan) -> Vec<u8> {
    let mut rest = vec![1];
    rest.push(byte(plan.victims.len()));
    for &victim in &plan.victims {
        rest.push(byte(victim));
    }
    rest.push(byte(plan.parts.len()));
    for part in &plan.parts {
        rest.push(byte(part.job));
        rest.push(if part.rollback { 1 } else { 0 });
        let time = u16::try_from(part.time).expect("a part is at most 60,000 ms long");
        rest.extend(time.to_be_bytes());
    }
    rest.push(byte(plan.rounds));
    let total = i32::try_from(plan.total).expect("32 jobs earn at most 1,000,000 each");
    rest.extend(total.to_be_bytes());
    // The end may pass the last time a book can name, but not 4 bytes.
    let end = u32::try_from(plan.end).expect("an end fits 4 bytes");
    rest.extend(end.to_be_bytes());

    let length = u16::try_from(rest.len() + 2).expect("an answer is at most 430 bytes");
    let mut bytes = length.to_be_bytes().to_vec();
    bytes.extend(rest);
    bytes
}

fn byte(number: usize) -> u8 {
    u8::try_from(number).expect("jobs, parts and rounds are at most 96")
}
