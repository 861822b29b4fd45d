//! No time is worth printing for a wrong answer: the planners must agree first.

use crate::books::Set;
use crate::calls::{call, Call, Planner, Question, OF_BOOKS, OF_CURVES};
use crate::curves;
use beside::hex::hex;
use second::answer::MOST_BYTES;
use second::make;

/// The random books on which the planners are held to the second one, besides
/// the benchmark's own.
pub const RANDOM_BOOKS: u64 = 100_000;

pub fn check(books: &[Set], curves: &[Set]) -> Result<(), String> {
    for set in books {
        for book in &set.items {
            // A time says nothing of a book that is not what its row says.
            if second::plan(book).is_err() != set.refused {
                return Err(format!(
                    "a book of {} ({} jobs) is accepted or refused against its name",
                    set.name, set.size
                ));
            }
            all_agree(&OF_BOOKS, book)?;
        }
    }
    for item in curves.iter().flat_map(|set| &set.items) {
        let (t, curve) = curves::taken_apart(item);
        second::curve_worth(curve, t)
            .map_err(|refusal| format!("a benchmark curve is refused: {refusal:?}"))?;
        all_agree(&OF_CURVES, item)?;
    }
    for seed in 0..RANDOM_BOOKS {
        let book = match seed % 10 {
            0..=6 => make::valid(seed),
            7..=8 => make::damaged(seed),
            _ => make::noise(seed),
        };
        all_agree(&OF_BOOKS, &book)?;
        for item in curves::in_book(&book) {
            all_agree(&OF_CURVES, &item)?;
        }
    }
    Ok(())
}

fn all_agree(questions: &[Question], item: &[u8]) -> Result<(), String> {
    for &question in questions {
        let second = answered(call((Planner::Second, question)), item);
        for planner in [Planner::Plain, Planner::Proved] {
            let other = answered(call((planner, question)), item);
            if other != second {
                return Err(difference(question, planner, item, &second, &other));
            }
        }
    }
    Ok(())
}

/// A call's number, and the output that it left.
type Answered = (u64, [u8; MOST_BYTES]);

fn answered(call: Call, item: &[u8]) -> Answered {
    let mut out = [0xA5; MOST_BYTES];
    (call(item, &mut out), out)
}

fn difference(
    question: Question,
    planner: Planner,
    item: &[u8],
    second: &Answered,
    other: &Answered,
) -> String {
    let name = planner.name();
    format!(
        "the {} differs\nSecond: {} {}\n{name}: {} {}\nasked: {}",
        question.name(),
        question.in_words(second.0),
        hex(&second.1),
        question.in_words(other.0),
        hex(&other.1),
        hex(item)
    )
}
