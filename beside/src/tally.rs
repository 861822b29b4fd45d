//! What was met, so that one can see whether the books were worth making.

use second::refusal::{self, Refusal, CUT, RANGE, TAIL};
use second::Plan;

#[derive(Default)]
pub struct Tally {
    kinds: Vec<(&'static str, u64)>,
    refused: [u64; 11],
    accepted: u64,
    empty: u64,
    with_victims: u64,
    normal_parts: u64,
    rollback_parts: u64,
    most_parts: usize,
    most_rounds: usize,
    questions: u64,
    worths: Worths,
}

/// What the worth call answered.
#[derive(Default)]
pub struct Worths {
    below_zero: u64,
    zero: u64,
    above_zero: u64,
    none: u64,
    refused: [u64; 11],
}

impl Worths {
    pub fn add(&mut self, worth: &Result<Option<i64>, Refusal>) {
        match worth {
            Ok(Some(..=-1)) => self.below_zero += 1,
            Ok(Some(0)) => self.zero += 1,
            Ok(Some(1..)) => self.above_zero += 1,
            Ok(None) => self.none += 1,
            Err(refusal) => self.refused[usize::from(refusal.number)] += 1,
        }
    }

    fn add_all(&mut self, other: &Worths) {
        self.below_zero += other.below_zero;
        self.zero += other.zero;
        self.above_zero += other.above_zero;
        self.none += other.none;
        for (sum, count) in self.refused.iter_mut().zip(other.refused) {
            *sum += count;
        }
    }
}

impl Tally {
    /// Counts one book: what it was planned as, how many record questions were
    /// asked about it, and what the worth call answered.
    pub fn add(
        &mut self,
        kind: &'static str,
        planned: &Result<Plan, Refusal>,
        questions: u64,
        worths: &Worths,
    ) {
        match self.kinds.iter_mut().find(|(name, _)| *name == kind) {
            Some((_, count)) => *count += 1,
            None => self.kinds.push((kind, 1)),
        }
        self.questions += questions;
        self.worths.add_all(worths);
        let plan = match planned {
            Ok(plan) => plan,
            Err(refusal) => {
                self.refused[usize::from(refusal.number)] += 1;
                return;
            }
        };
        self.accepted += 1;
        self.empty += u64::from(plan.parts.is_empty());
        self.with_victims += u64::from(!plan.victims.is_empty());
        for part in &plan.parts {
            if part.rollback {
                self.rollback_parts += 1;
            } else {
                self.normal_parts += 1;
            }
        }
        self.most_parts = self.most_parts.max(plan.parts.len());
        self.most_rounds = self.most_rounds.max(plan.rounds);
    }

    pub fn print(&self) {
        let kinds: Vec<String> = self
            .kinds
            .iter()
            .map(|(kind, count)| format!("{kind} {count}"))
            .collect();
        println!("made: {}", kinds.join(", "));
        println!(
            "accepted {}: {} with victims, {} with no part, {} normal parts, {} rollback parts",
            self.accepted, self.with_victims, self.empty, self.normal_parts, self.rollback_parts
        );
        println!(
            "the longest plans: {} parts, {} rounds",
            self.most_parts, self.most_rounds
        );
        // ROOM is asked for with each book, by an output that is too short.
        println!("refused: {}", by_number(&self.refused, 2..=10));
        println!("record questions {}", self.questions);
        let worths = &self.worths;
        println!(
            "worths: {} above zero, {} zero, {} below, {} none; refused: {}",
            worths.above_zero,
            worths.zero,
            worths.below_zero,
            worths.none,
            by_number(&worths.refused, [CUT, RANGE, TAIL])
        );
    }
}

/// The refusals of some numbers, in words.
fn by_number(refused: &[u64; 11], numbers: impl IntoIterator<Item = u8>) -> String {
    let words = |number: u8| {
        let count = refused[usize::from(number)];
        format!("{number} {} {count}", refusal::name(number))
    };
    let words: Vec<String> = numbers.into_iter().map(words).collect();
    words.join(", ")
}
