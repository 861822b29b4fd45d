//! A maker of books: the same seed always gives the same book.
//!
//! `valid` keeps every rule of reading (the planner may still find a KNOT),
//! `damaged` spoils a valid book, `noise` is mostly random bytes.

mod bytes;
mod damage;
mod dice;
mod numbers;
mod sharing;
mod special;

pub use bytes::bytes_of;
pub use damage::{damaged, noise};
pub use dice::Dice;

use crate::book::{Job, LAST_TIME, MOST_ROLLBACK, MOST_RUN, NEVER};
use numbers::{curve, flat, reach, time, value, Scale};
use sharing::{share, Sharing};

/// A book as records, before it is written as bytes.
struct Draft {
    now: i64,
    resources: usize,
    jobs: Vec<Job>,
}

impl Draft {
    fn bytes(&self) -> Vec<u8> {
        bytes_of(self.now, self.resources, &self.jobs)
    }
}

/// A book that the reader accepts.
pub fn valid(seed: u64) -> Vec<u8> {
    draft(seed).bytes()
}

fn draft(seed: u64) -> Draft {
    let mut dice = Dice::new(seed ^ 0x5EC0_4D00_0000_0001);
    let dice = &mut dice;
    match dice.between(0, 49) {
        0 => return special::late(dice),
        1 => return special::turned(dice),
        2..=3 => return special::narrow(dice),
        _ => {}
    }
    use Scale::*;
    let scale = dice.pick(&[Tiny, Tiny, Small, Small, Small, Wide, Edge]);
    use Sharing::*;
    let sharing = dice.pick(&[
        Apart, Random, Random, Chain, Chain, Tree, Tree, Circles, Circles, Hubs, Hubs, Hubs,
    ]);
    let job_count = dice.pick(&[0, 1, 2, 3, 3, 4, 4, 5, 6, 7, 9, 12, 16, 24, 31, 32, 32]);
    let resources = match dice.between(0, 9) {
        0 => 0,
        1 => 1,
        2 => 2,
        3..=5 => 32,
        6..=8 => (job_count + 1).min(32),
        _ => dice.below(33),
    };
    let now = match dice.between(0, 19) {
        0..=11 => 0,
        12..=15 => dice.between(1, 100),
        16..=17 => dice.between(0, LAST_TIME),
        18 => LAST_TIME - dice.between(0, reach(scale)),
        _ => dice.pick(&[1, LAST_TIME - 1, LAST_TIME]),
    };

    let never_percent = dice.pick(&[0, 0, 0, 15, 15, 50, 100]);
    let back_percent = dice.pick(&[0, 0, 5, 25]);
    // In a calm book finishing late is no loss, so the plans get long; with
    // poor jobs the chains before the few rich ones do.
    let calm = dice.chance(35);
    let poor_percent = dice.pick(&[0, 0, 40, 90]);
    let mut jobs = Vec::new();
    for _ in 0..job_count {
        let in_rollback = dice.chance(back_percent);
        let never = !in_rollback && dice.chance(never_percent);
        let run = time(dice, scale, MOST_RUN);
        let rollback = if never {
            NEVER
        } else {
            time(dice, scale, MOST_ROLLBACK)
        };
        let mut curve = if calm {
            flat(0, value(dice, scale))
        } else {
            curve(dice, scale, now, run)
        };
        if dice.chance(poor_percent) {
            for piece in &mut curve.pieces {
                piece.value = dice.pick(&[-1, 0, 0, 1]);
                piece.slope = 0;
            }
        }
        jobs.push(Job {
            in_rollback,
            run,
            rollback,
            request: None,
            held: Vec::new(),
            curve,
        });
    }
    share(dice, scale, sharing, resources, &mut jobs);
    Draft {
        now,
        resources,
        jobs,
    }
}
