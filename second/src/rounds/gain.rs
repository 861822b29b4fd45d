//! What a group, or a course in the choice of a mode, comes to.

use crate::worth::compare_density;
use std::cmp::Ordering;

/// A time and the utility earned in it. There is no utility where some job
/// finishes in it at a moment with none (02, R-7).
#[derive(Clone, Copy, Debug, PartialEq, Eq)]
pub struct Gain {
    pub time: i64,
    pub utility: Option<i64>,
}

impl Gain {
    /// Before the first part.
    pub const NOTHING_YET: Gain = Gain {
        time: 0,
        utility: Some(0),
    };

    /// One part more. A none among what is earned spoils all of it, and nothing
    /// that comes later makes it good.
    pub fn and(self, time: i64, earned: Option<i64>) -> Gain {
        let utility = match (self.utility, earned) {
            (Some(utility), Some(earned)) => Some(utility + earned),
            _ => None,
        };
        Gain {
            time: self.time + time,
            utility,
        }
    }

    /// Whether the rollback course is taken. "A course with none among its
    /// credits loses to one without, and if both have it normal wins." Without
    /// any it is the denser one, and normal wins ties (line 36 of VI.5).
    pub fn beats_normal(self, normal: Gain) -> bool {
        match (self.utility, normal.utility) {
            (None, _) => false,
            (Some(_), None) => true,
            (Some(back), Some(utility)) => {
                let normal = (utility, normal.time);
                compare_density((back, self.time), normal) == Ordering::Greater
            }
        }
    }
}
