//! Books that break rules.

use super::bytes::repair_length;
use super::dice::Dice;
use super::{draft, Draft};
use crate::book::{
    Claim, Piece, LAST_TIME, MOST_ROLLBACK, MOST_RUN, MOST_SLOPE, MOST_VALUE, NEVER,
};

/// A valid book with something changed: either one number of it set on or
/// beside an end of its range, or some bytes changed, cut or added. The length
/// field is mostly repaired, since SIZE hides all that comes after it.
pub fn damaged(seed: u64) -> Vec<u8> {
    let mut dice = Dice::new(seed ^ 0xDA3A_6ED0_0000_0001);
    let dice = &mut dice;
    let mut draft = draft(dice.roll());
    if dice.chance(40) {
        spoil(dice, &mut draft);
        return draft.bytes();
    }
    let mut bytes = draft.bytes();
    for _ in 0..dice.pick(&[1, 1, 1, 2, 3]) {
        damage(dice, &mut bytes);
    }
    if dice.chance(85) {
        repair_length(&mut bytes);
    }
    bytes
}

/// Sets one number on or beside an end of its range.
fn spoil(dice: &mut Dice, book: &mut Draft) {
    if book.jobs.is_empty() {
        book.now = dice.pick(&[LAST_TIME, LAST_TIME + 1, -1]);
        return;
    }
    let number = dice.below(book.jobs.len());
    let resources = book.resources;
    let job = &mut book.jobs[number];
    let held = dice.below(job.held.len().max(1));
    let at = dice.below(job.curve.pieces.len());
    match dice.between(0, 16) {
        0 => job.in_rollback = !job.in_rollback,
        1 => job.run = dice.pick(&[0, 1, MOST_RUN, MOST_RUN + 1, 65_535]),
        2 => {
            job.rollback = dice.pick(&[0, 1, MOST_ROLLBACK, MOST_ROLLBACK + 1, NEVER - 1, NEVER]);
        }
        3 => job.run -= 1,
        4..=5 => {
            let claim = Claim {
                resource: dice.pick(&[0, resources, resources.saturating_sub(1), 254, 255]),
                hold: dice.pick(&[0, 1, job.run, job.run + 1]),
                rollback: dice.pick(&[0, 1, MOST_ROLLBACK, MOST_ROLLBACK + 1, NEVER - 1, NEVER]),
            };
            job.request = Some(claim);
        }
        6..=8 if !job.held.is_empty() => {
            let resource = dice.below(resources + 1);
            let rollback = job.rollback;
            let claim = &mut job.held[held];
            match dice.between(0, 2) {
                0 => claim.resource = resource,
                1 => claim.hold = dice.pick(&[0, 1, job.run, job.run + 1]),
                _ => claim.rollback = dice.pick(&[0, 1, rollback, rollback + 1, NEVER - 1, NEVER]),
            }
        }
        // More held than there is room for, which may repeat some.
        6..=8 => {
            let count = dice.between(1, 33);
            for resource in 0..count as usize {
                let rollback = job.rollback;
                job.held.push(Claim {
                    resource,
                    hold: 1,
                    rollback,
                });
            }
        }
        9 => {
            // Up to nine pieces, so that the count may be one too many.
            let mut start = job.curve.pieces[job.curve.pieces.len() - 1].start;
            for _ in 0..9 - job.curve.pieces.len() {
                start += 1;
                job.curve.pieces.push(Piece {
                    start,
                    value: 0,
                    slope: 0,
                });
            }
            job.curve.termination = job.curve.termination.max(start);
        }
        10..=11 => {
            let before = if at == 0 {
                0
            } else {
                job.curve.pieces[at - 1].start
            };
            let start = dice.pick(&[before, before + 1, before - 1, LAST_TIME, LAST_TIME + 1]);
            job.curve.pieces[at].start = start;
        }
        12 => {
            let most = dice.pick(&[MOST_VALUE, MOST_VALUE + 1, i64::from(i32::MAX)]);
            job.curve.pieces[at].value = dice.pick(&[most, -most, -most - 1]);
        }
        13 => {
            let most = dice.pick(&[MOST_SLOPE, MOST_SLOPE + 1, i64::from(i16::MAX)]);
            job.curve.pieces[at].slope = dice.pick(&[most, -most, -most - 1]);
        }
        14 => {
            let last = job.curve.pieces[job.curve.pieces.len() - 1].start;
            job.curve.termination =
                dice.pick(&[last - 1, last, last + 1, LAST_TIME, LAST_TIME + 1]);
        }
        15 => book.now = dice.pick(&[LAST_TIME, LAST_TIME + 1, -1]),
        // A piece whose value is on or 1 beyond the limit where it ends.
        _ => {
            let pieces = &mut job.curve.pieces;
            let end = pieces
                .get(at + 1)
                .map_or(job.curve.termination, |next| next.start - 1);
            let limit = dice.pick(&[-MOST_VALUE - 1, -MOST_VALUE, MOST_VALUE, MOST_VALUE + 1]);
            let slope = dice.pick(&[-MOST_SLOPE, -1, 1, MOST_SLOPE]);
            let value = limit - slope * (end - pieces[at].start);
            if value.abs() <= MOST_VALUE {
                pieces[at].value = value;
                pieces[at].slope = slope;
            }
        }
    }
}

fn damage(dice: &mut Dice, bytes: &mut Vec<u8>) {
    let extra: Vec<u8> = (0..dice.between(1, 6)).map(|_| some_byte(dice)).collect();
    if bytes.is_empty() {
        bytes.extend(extra);
        return;
    }
    // Early bytes are hit more often than their number deserves.
    let reach = if dice.chance(30) {
        bytes.len().min(60)
    } else {
        bytes.len()
    };
    let at = dice.below(reach);
    match dice.between(0, 9) {
        0..=2 => bytes[at] = some_byte(dice),
        3..=4 => bytes[at] = bytes[at].wrapping_add(1),
        5 => bytes[at] = bytes[at].wrapping_sub(1),
        6 => bytes[at] ^= 1 << dice.below(8),
        7 => bytes.truncate(at),
        8 => {
            let end = (at + extra.len()).min(bytes.len());
            bytes.drain(at..end);
        }
        _ => {
            let place = if dice.chance(50) { bytes.len() } else { at };
            bytes.splice(place..place, extra);
        }
    }
}

fn some_byte(dice: &mut Dice) -> u8 {
    match dice.between(0, 5) {
        0 => 0,
        1 => 1,
        2 => 255,
        3 => dice.between(0, 33) as u8,
        _ => dice.between(0, 255) as u8,
    }
}

/// Bytes with little or no order. Some have a good header, so that the fields
/// after it are looked at too.
pub fn noise(seed: u64) -> Vec<u8> {
    let mut dice = Dice::new(seed ^ 0x4015_E000_0000_0001);
    let dice = &mut dice;
    let length = match dice.between(0, 9) {
        0..=1 => dice.between(0, 12),
        2..=7 => dice.between(9, 120),
        8 => dice.between(0, 3_000),
        // Past what a length field can say, once in a while.
        _ => dice.pick(&[9, 65_535, 65_536, 65_545]),
    };
    let low = dice.chance(50);
    let mut bytes: Vec<u8> = Vec::new();
    for _ in 0..length {
        bytes.push(if low {
            dice.between(0, 3) as u8
        } else {
            some_byte(dice)
        });
    }
    if bytes.len() >= 9 && dice.chance(80) {
        bytes[2] = 1;
        bytes[3] = dice.between(0, 34) as u8;
        bytes[4] = dice.between(0, 34) as u8;
        bytes[5] &= 127;
        repair_length(&mut bytes);
    }
    bytes
}
