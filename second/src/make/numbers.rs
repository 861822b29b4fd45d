//! How large the numbers of a made book are, and its curves.

use super::dice::Dice;
use crate::book::{Curve, Piece, LAST_TIME, MOST_PIECES, MOST_SLOPE, MOST_VALUE};

#[derive(Clone, Copy, PartialEq, Eq)]
pub enum Scale {
    /// Makes ties likely.
    Tiny,
    Small,
    Wide,
    /// Values on and beside the ends of their ranges.
    Edge,
}

/// A run or rollback time from 1 to `most`.
pub fn time(dice: &mut Dice, scale: Scale, most: i64) -> i64 {
    match scale {
        Scale::Tiny => dice.between(1, 3),
        Scale::Small => dice.between(1, 20),
        Scale::Wide => dice.between(1, most),
        Scale::Edge => dice.pick(&[1, 1, 2, most / 2, most - 1, most, most]),
    }
}

pub fn value(dice: &mut Dice, scale: Scale) -> i64 {
    match scale {
        Scale::Tiny => dice.between(-1, 4),
        Scale::Small => dice.between(-10, 60),
        Scale::Wide => dice.between(-MOST_VALUE / 4, MOST_VALUE),
        Scale::Edge => dice.pick(&[
            -MOST_VALUE,
            1 - MOST_VALUE,
            -1,
            0,
            1,
            MOST_VALUE - 1,
            MOST_VALUE,
            MOST_VALUE,
        ]),
    }
}

fn slope(dice: &mut Dice, scale: Scale) -> i64 {
    if dice.chance(50) {
        return 0;
    }
    match scale {
        Scale::Tiny => dice.between(-1, 1),
        Scale::Small => dice.between(-4, 4),
        Scale::Wide => dice.between(-60, 60),
        Scale::Edge => dice.pick(&[
            -MOST_SLOPE,
            1 - MOST_SLOPE,
            -1,
            1,
            MOST_SLOPE - 1,
            MOST_SLOPE,
        ]),
    }
}

/// How far ahead of now things happen.
pub fn reach(scale: Scale) -> i64 {
    match scale {
        Scale::Tiny => 12,
        Scale::Small => 120,
        Scale::Wide | Scale::Edge => 500_000,
    }
}

/// A flat curve up to the last time there is.
pub fn flat(start: i64, value: i64) -> Curve {
    Curve {
        pieces: vec![Piece {
            start,
            value,
            slope: 0,
        }],
        termination: LAST_TIME,
    }
}

/// A curve near now, so that it matters when a job finishes.
pub fn curve(dice: &mut Dice, scale: Scale, now: i64, run: i64) -> Curve {
    let reach = reach(scale);
    let count = dice.pick(&[1, 1, 1, 2, 2, 3, 4, MOST_PIECES]);
    let first = match dice.between(0, 5) {
        0..=2 => 0,
        3 => now,
        4 => now - dice.between(0, reach),
        _ => now + dice.between(0, reach / 2),
    };
    let mut starts = vec![first.clamp(0, LAST_TIME)];
    for at in 1..count {
        let gap = if dice.chance(20) {
            1
        } else {
            dice.between(1, 1 + reach / count)
        };
        // The piece after the first often starts just where things happen.
        let next = if at == 1 && first < now {
            now + gap
        } else {
            starts[starts.len() - 1] + gap
        };
        if next > starts[starts.len() - 1] && next <= LAST_TIME {
            starts.push(next);
        }
    }
    let last = starts[starts.len() - 1];
    let termination = match dice.between(0, 9) {
        0 => now + run,
        1 => now + run - 1,
        2 => last,
        3 => LAST_TIME,
        4 => last + dice.between(0, 3),
        _ => last.max(now) + dice.between(0, 2 * reach),
    };
    let termination = termination.clamp(last, LAST_TIME);

    let mut pieces = Vec::new();
    for (at, &start) in starts.iter().enumerate() {
        let end = starts.get(at + 1).map_or(termination, |next| next - 1);
        pieces.push(piece(dice, scale, start, end - start));
    }
    Curve {
        pieces,
        termination,
    }
}

/// A piece whose value stays in range over its length.
fn piece(dice: &mut Dice, scale: Scale, start: i64, length: i64) -> Piece {
    let mut value = value(dice, scale);
    let mut slope = slope(dice, scale);
    let end = value + slope * length;
    if end.abs() > MOST_VALUE {
        let limit = if slope > 0 { MOST_VALUE } else { -MOST_VALUE };
        let other = limit - slope * length;
        if dice.chance(50) && other.abs() <= MOST_VALUE {
            // Ends exactly on the limit.
            value = other;
        } else {
            slope = (limit - value) / length;
        }
    }
    Piece {
        start,
        value,
        slope,
    }
}
