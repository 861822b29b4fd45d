//! Made books, valid and damaged: small ones, and few of each kind of outcome,
//! so that the corpus stays short and still sees many.

use second::make;
use second::{plan, Refusal};
use std::collections::BTreeMap;

const LONGEST_BOOK: usize = 130;
const MOST_OF_A_KIND: usize = 5;

/// As many as `room` bytes take, each with a count of 2 bytes before it.
pub fn books(room: usize) -> Vec<Vec<u8>> {
    let mut met: BTreeMap<Outcome, usize> = BTreeMap::new();
    let mut books = Vec::new();
    let mut bytes = 0;
    for seed in 0..20_000 {
        let book = match seed % 8 {
            0..=4 => make::valid(seed),
            5..=6 => make::damaged(seed),
            _ => make::noise(seed),
        };
        if book.len() > LONGEST_BOOK || bytes + book.len() + 2 > room {
            continue;
        }
        let count = met.entry(outcome(&book)).or_default();
        if *count < MOST_OF_A_KIND {
            *count += 1;
            bytes += book.len() + 2;
            books.push(book);
        }
    }
    books
}

/// What a book brings, roughly.
#[derive(PartialEq, Eq, PartialOrd, Ord)]
enum Outcome {
    Refused {
        number: u8,
        late: bool,
    },
    Planned {
        victims: usize,
        parts: usize,
        rounds: usize,
        rollback: bool,
        /// Some job runs in more than one part.
        split: bool,
        /// Some job is left at the end.
        left: bool,
    },
}

fn outcome(book: &[u8]) -> Outcome {
    let plan = match plan(book) {
        Ok(plan) => plan,
        Err(Refusal { number, place }) => {
            return Outcome::Refused {
                number,
                late: place > 40,
            }
        }
    };
    let mut times = [0; 32];
    for part in &plan.parts {
        times[part.job] += 1;
    }
    let touched = times.iter().filter(|&&parts| parts > 0).count();
    Outcome::Planned {
        victims: plan.victims.len().min(2),
        parts: plan.parts.len().min(6),
        rounds: plan.rounds.min(3),
        rollback: plan.parts.iter().any(|part| part.rollback),
        split: times.iter().any(|&parts| parts > 1),
        left: touched < usize::from(book[3]),
    }
}
