//! What finishing at a moment is worth, and worth per millisecond.

use crate::book::Curve;
use std::cmp::Ordering;

/// "In the last piece that starts at or before t, value + slope x (t - start)."
/// Before the first start and after termination 000 calls a curve undefined,
/// and 02 has it answer none there (R-7). "At termination itself the curve still
/// holds", and so it does at the first start.
pub fn worth(curve: &Curve, t: i64) -> Option<i64> {
    if t > curve.termination {
        return None;
    }
    let mut result = None;
    for piece in &curve.pieces {
        if piece.start <= t {
            result = Some(piece.value + piece.slope * (t - piece.start));
        }
    }
    result
}

/// Compares one utility per time with another, exactly: both times are at
/// least 1, so the fractions a/b and c/d compare as a x d and c x b do.
pub fn compare_density(a: (i64, i64), b: (i64, i64)) -> Ordering {
    let (utility_a, time_a) = a;
    let (utility_b, time_b) = b;
    let left = i128::from(utility_a) * i128::from(time_b);
    let right = i128::from(utility_b) * i128::from(time_a);
    left.cmp(&right)
}
