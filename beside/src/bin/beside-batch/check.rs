//! What the corpus program printed about a batch, held to the second planner.

use crate::batch::Batch;
use crate::program::Ended;
use beside::difference::{caught, Difference};
use beside::hex;
use beside::made::Made;
use beside::printed;
use beside::replayed::{plan_of, replayed};
use beside::tally::{Tally, Worths};
use second::{Plan, Refusal};

/// Every byte that was printed, and how the program ended. A difference comes
/// with the book where it shows.
pub fn check<'a>(
    batch: &'a Batch,
    ended: &Ended,
    tally: &mut Tally,
) -> Result<(), (&'a Made, Difference)> {
    let mut rest = ended.printed.as_slice();
    for (number, made) in batch.books.iter().enumerate() {
        let book = &made.book;
        let checked = caught(|| of_book(number, book, rest));
        let (planned, later) = checked.map_err(|difference| (made, with_end(difference, ended)))?;
        let mut worths = Worths::default();
        for worth in printed::worth::answers(number, book) {
            worths.add(&worth);
        }
        tally.add(made.kind, &planned, 1, &worths);
        rest = later;
    }
    let last = batch.books.last().expect("a batch has room for a book");
    closed(rest, ended).map_err(|difference| (last, difference))
}

/// What was printed about one book must be the start of `rest`. Gives the plan
/// or the refusal, and what was printed after it.
fn of_book<'a>(
    number: usize,
    book: &[u8],
    rest: &'a [u8],
) -> Result<(Result<Plan, Refusal>, &'a [u8]), Difference> {
    let expected = printed::of_book(number, book);
    let Some(later) = rest.strip_prefix(expected.as_bytes()) else {
        return Err(line_that_differs(&expected, rest));
    };
    let planned = match second::plan(book) {
        Ok(_) => {
            let plan = plan_of(&answer_in(number, rest)?)?;
            replayed(book, &plan)?;
            Ok(plan)
        }
        Err(refusal) => Err(refusal),
    };
    Ok((planned, later))
}

/// The bytes of the answer line that `printed` begins with.
fn answer_in(number: usize, printed: &[u8]) -> Result<Vec<u8>, Difference> {
    let line = first_line(printed);
    line.strip_prefix(format!("{number} answer ").as_bytes())
        .and_then(hex::bytes)
        .ok_or_else(|| Difference {
            question: "reading the answer line back".to_string(),
            second: "gave the same line".to_string(),
            proved: String::from_utf8_lossy(line).into_owned(),
        })
}

fn line_that_differs(expected: &str, printed: &[u8]) -> Difference {
    let mut printed = printed;
    for second in expected.lines() {
        let line = first_line(printed);
        if line != second.as_bytes() {
            return Difference {
                question: "what the corpus program prints".to_string(),
                second: second.to_string(),
                proved: in_words(line),
            };
        }
        printed = printed.get(line.len() + 1..).unwrap_or(&[]);
    }
    Difference {
        question: "what the corpus program prints".to_string(),
        second: "a line end".to_string(),
        proved: "no line end".to_string(),
    }
}

/// A program that was stopped short has printed too little.
fn with_end(mut difference: Difference, ended: &Ended) -> Difference {
    if !ended.well() {
        difference.proved += &format!(" (the program's end: {})", ended.in_words());
    }
    difference
}

fn closed(rest: &[u8], ended: &Ended) -> Result<(), Difference> {
    if !rest.is_empty() {
        return Err(Difference {
            question: "what the corpus program prints after the batch's last book".to_string(),
            second: "nothing".to_string(),
            proved: in_words(first_line(rest)),
        });
    }
    if !ended.well() {
        return Err(Difference {
            question: "how the corpus program ends, after the batch's last book".to_string(),
            second: "every call ends".to_string(),
            proved: ended.in_words(),
        });
    }
    Ok(())
}

/// Up to its line end, or all where there is none.
fn first_line(text: &[u8]) -> &[u8] {
    let end = text.iter().position(|&byte| byte == b'\n');
    &text[..end.unwrap_or(text.len())]
}

fn in_words(line: &[u8]) -> String {
    match line {
        [] => "nothing more".to_string(),
        _ => String::from_utf8_lossy(line).into_owned(),
    }
}
