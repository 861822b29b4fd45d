//! Times of the calls, interleaved.

use crate::books::Set;
use crate::calls::{call, Asked, Call, Question, PLANNERS};
use crate::clock;
use second::answer::MOST_BYTES;
use std::hint::black_box;

/// Each call is timed in every round, one after the other, so that a slow
/// spell of the machine meets all of them.
pub const ROUNDS: usize = 25;
/// A round times so many nanoseconds' worth of each call at least.
const SAMPLE: u64 = 1_000_000;

/// What each round measured for one item of a set, in nanoseconds: a number for
/// each call.
pub struct Times {
    asked: Vec<Asked>,
    rounds: Vec<Vec<f64>>,
}

impl Times {
    /// A call's median over the rounds.
    pub fn time(&self, asked: Asked) -> f64 {
        let at = self.place(asked);
        median(self.rounds.iter().map(|round| round[at]).collect())
    }

    /// The median of the rounds' own ratios of one call to another.
    pub fn ratio(&self, asked: Asked, to: Asked) -> f64 {
        let (at, to) = (self.place(asked), self.place(to));
        let ratio = |round: &Vec<f64>| round[at] / round[to];
        median(self.rounds.iter().map(ratio).collect())
    }

    fn place(&self, asked: Asked) -> usize {
        let place = self.asked.iter().position(|&one| one == asked);
        place.expect("the tables show what was measured")
    }
}

/// The times of some questions to every planner.
pub fn measure(set: &Set, questions: &[Question]) -> Times {
    let to_all = |&question| PLANNERS.map(|planner| (planner, question));
    let asked: Vec<Asked> = questions.iter().flat_map(to_all).collect();
    let mut out = vec![0; MOST_BYTES];
    let mut repeats = |&asked: &Asked| {
        let once = sample(set, &mut out, call(asked), 1).max(1.0);
        (SAMPLE as f64 / (once * set.items.len() as f64)).ceil() as u32
    };
    let repeats: Vec<u32> = asked.iter().map(&mut repeats).collect();
    let mut round = || {
        let calls = asked.iter().zip(&repeats);
        calls
            .map(|(&asked, &repeats)| sample(set, &mut out, call(asked), repeats))
            .collect()
    };
    let rounds = (0..ROUNDS).map(|_| round()).collect();
    Times { asked, rounds }
}

/// Nanoseconds for one item, the mean over the set and the repeats.
fn sample(set: &Set, out: &mut [u8], call: Call, repeats: u32) -> f64 {
    let begun = clock::now();
    for _ in 0..repeats {
        for item in &set.items {
            // The output is not cleared in between; the compiler must not see
            // that nobody reads it.
            black_box(call(black_box(item), black_box(&mut *out)));
        }
    }
    let passed = clock::now() - begun;
    passed as f64 / (f64::from(repeats) * set.items.len() as f64)
}

fn median(mut values: Vec<f64>) -> f64 {
    values.sort_by(f64::total_cmp);
    values[values.len() / 2]
}
