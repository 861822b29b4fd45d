//! What the corpus program must print, as the second planner has it.

pub mod worth;

use crate::code;
use crate::hex::hex;
use second::answer::{answer, MOST_BYTES};
use second::{Part, Plan, Refusal};

/// All that it prints about a row of books.
pub fn stdout<'a>(books: impl IntoIterator<Item = &'a [u8]>) -> String {
    let lines = |(number, book)| of_book(number, book);
    books.into_iter().enumerate().map(lines).collect()
}

/// What it prints about the book at a place of the row.
pub fn of_book(number: usize, book: &[u8]) -> String {
    let mut text = answer_line(number, book);
    text += &row_line(number, book);
    text += &record_line(number, book);
    text += &first_lines(number, book);
    text += &worth::line(number, book);
    text += &second::listing(book);
    text += &second::first_listing(book);
    text
}

/// The plan call's bytes.
fn answer_line(number: usize, book: &[u8]) -> String {
    let mut out = [0; MOST_BYTES];
    match answer(book, &mut out) {
        Ok(length) => format!("{number} answer {}\n", hex(&out[..length])),
        Err(refusal) => format!("{number} {}\n", refused(refusal)),
    }
}

/// The call that fills a row of part records, its fields in decimal.
fn row_line(number: usize, book: &[u8]) -> String {
    match second::plan(book) {
        Ok(plan) => format!("{number} row {}\n", fields(&plan)),
        Err(refusal) => format!("{number} row {}\n", refused(refusal)),
    }
}

fn fields(plan: &Plan) -> String {
    let mut text = "victims".to_string();
    for victim in &plan.victims {
        text += &format!(" {victim}");
    }
    text += " parts";
    for part in &plan.parts {
        text += &format!(" {}", part_fields(part));
    }
    text += &format!(
        " rounds {} total {} end {}",
        plan.rounds, plan.total, plan.end
    );
    text
}

fn part_fields(part: &Part) -> String {
    format!("{} {} {}", part.job, u8::from(part.rollback), part.time)
}

/// The record question, for one job of the first five.
fn record_line(number: usize, book: &[u8]) -> String {
    let job = number % 5;
    let found = match second::record(book, job) {
        Ok(Some(range)) => hex(&book[range]),
        Ok(None) => "none".to_string(),
        Err(refusal) => refused(refusal),
    };
    format!("{number} record {job} {found}\n")
}

/// The first part by value, and as the one number that C gets.
fn first_lines(number: usize, book: &[u8]) -> String {
    let first = second::first(book);
    let word = code::of_first(&first);
    let found = match first {
        Ok(Some(part)) => part_fields(&part),
        Ok(None) => "nothing".to_string(),
        Err(refusal) => refused(refusal),
    };
    format!("{number} first {found}\n{number} word {word}\n")
}

fn refused(refusal: Refusal) -> String {
    format!("refused {} at {}", refusal.number, refusal.place)
}

#[cfg(test)]
mod tests {
    use super::*;

    /// Case 4 of 01: an accepted book whose plan has no part.
    const FOUR: &[u8] = include_bytes!("../../examples/case04.book");
    /// Case 5.
    const FIVE: &[u8] = include_bytes!("../../examples/case05.book");
    /// Case 9: a victim.
    const NINE: &[u8] = include_bytes!("../../examples/case09.book");
    /// Case 11: KNOT, which the record question does not look for.
    const ELEVEN: &[u8] = include_bytes!("../../examples/case11.book");

    #[test]
    fn a_plan() {
        let record = hex(&FIVE[9..][..second::record(FIVE, 0).unwrap().unwrap().len()]);
        assert_eq!(
            of_book(0, FIVE),
            format!(
                "0 answer 00160100020001000201000005010000001600000007\n\
                 0 row victims parts 0 1 2 1 0 5 rounds 1 total 22 end 7\n\
                 0 record 0 {record}\n\
                 0 first 0 1 2\n\
                 0 word 65538\n\
                 0 worth 0 0 0 0 2147483648\n\
                 victims 0\npart 0 A 2 at 0\npart 1 N 5 at 2\ntotal 22 end 7 rounds 1\n\
                 part 0 A 2 at 0\n"
            )
        );
    }

    #[test]
    fn a_victim_and_no_such_job() {
        assert_eq!(
            of_book(8, NINE),
            "8 answer 001701010102010100030000000a01000000320000000d\n\
             8 row victims 1 parts 1 1 3 0 0 10 rounds 1 total 50 end 13\n\
             8 record 3 none\n\
             8 first 1 1 3\n\
             8 word 16842755\n\
             8 worth 25769803776 25769803776 25769803776 25769803776 25769803776\n\
             victims 1 1\npart 1 A 3 at 0\npart 0 N 10 at 3\ntotal 50 end 13 rounds 1\n\
             part 1 A 3 at 0\n"
        );
    }

    #[test]
    fn no_part() {
        assert_eq!(
            of_book(3, FOUR),
            "3 answer 000e010000000000000000000000\n\
             3 row victims parts rounds 0 total 0 end 0\n\
             3 record 3 none\n\
             3 first nothing\n\
             3 word 0\n\
             3 worth 25769803787 25769803787 25769803787 25769803787 25769803787\n\
             victims 0\ntotal 0 end 0 rounds 0\n\
             nothing\n"
        );
    }

    #[test]
    fn a_knot_has_records() {
        let record = hex(&ELEVEN[second::record(ELEVEN, 1).unwrap().unwrap()]);
        assert_eq!(
            of_book(11, ELEVEN),
            format!(
                "11 refused 10 at 0\n\
                 11 row refused 10 at 0\n\
                 11 record 1 {record}\n\
                 11 first refused 10 at 0\n\
                 11 word 42949672960\n\
                 11 worth 20 20 20 20 2147483648\n\
                 refused 10 at 0\n\
                 refused 10 at 0\n"
            )
        );
    }

    #[test]
    fn a_refusal() {
        assert_eq!(
            of_book(2, &[]),
            "2 refused 2 at 0\n\
             2 row refused 2 at 0\n\
             2 record 2 refused 2 at 0\n\
             2 first refused 2 at 0\n\
             2 word 8589934592\n\
             2 worth 21474836480 21474836480 21474836480 21474836480 21474836480\n\
             refused 2 at 0\n\
             refused 2 at 0\n"
        );
    }

    #[test]
    fn a_row_of_books() {
        assert_eq!(stdout([FIVE, NINE]), of_book(0, FIVE) + &of_book(1, NINE));
    }
}
