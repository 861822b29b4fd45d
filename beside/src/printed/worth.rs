//! The line of the worth call.

use crate::code;
use second::{curve_worth, Refusal};

/// The five answers in the numbers that C gets.
pub fn line(number: usize, book: &[u8]) -> String {
    let words = answers(number, book).map(|answer| format!(" {}", code::of_worth(&answer)));
    format!("{number} worth{}\n", words.concat())
}

/// What the call must say of the part that the corpus program asks about.
pub fn answers(number: usize, book: &[u8]) -> [Result<Option<i64>, Refusal>; 5] {
    let part = part(number, book);
    moments(part).map(|t| curve_worth(part, t))
}

/// The curve of the job of the record line: whole, without its last byte, or
/// with all that stands after it. A book without that record is itself taken
/// for a curve, from some byte on.
fn part(number: usize, book: &[u8]) -> &[u8] {
    let Ok(Some(record)) = second::record(book, number % 5) else {
        return book.get(number % 16..).unwrap_or(&[]);
    };
    let holds = usize::from(book[record.start + 10]);
    let first = record.start + 11 + 5 * holds;
    match number % 3 {
        0 => &book[first..record.end],
        1 => &book[first..record.end - 1],
        _ => &book[first..],
    }
}

/// Around the first start and the termination, by the places where a curve has
/// them, whatever stands there; 0 for a field that is not there.
fn moments(part: &[u8]) -> [u32; 5] {
    let field = |bytes: Option<&[u8; 4]>| bytes.map_or(0, |bytes| u32::from_be_bytes(*bytes));
    let first = field(part.get(1..).and_then(<[u8]>::first_chunk));
    let last = field(part.last_chunk());
    let halfway = (u64::from(first) + u64::from(last)) / 2;
    [
        first.saturating_sub(1),
        first,
        halfway as u32,
        last,
        last.saturating_add(1),
    ]
}

#[cfg(test)]
mod tests {
    use super::*;
    use second::refusal::{CUT, RANGE, TAIL};

    /// Case 5 of 01: job 0 holds one resource, so its curve stands at 25 to 40;
    /// that of job 1, the last, at 51. Both are flat from 0 to 100.
    const FIVE: &[u8] = include_bytes!("../../../examples/case05.book");

    /// Flat at 22, and none after the termination.
    const FLAT: [Result<Option<i64>, Refusal>; 5] = [
        Ok(Some(22)),
        Ok(Some(22)),
        Ok(Some(22)),
        Ok(Some(22)),
        Ok(None),
    ];

    #[test]
    fn a_whole_curve() {
        assert_eq!(part(15, FIVE), &FIVE[25..40]);
        assert_eq!(part(6, FIVE), &FIVE[51..]);
        assert_eq!(answers(6, FIVE), FLAT);
        assert_eq!(line(6, FIVE), "6 worth 22 22 22 22 2147483648\n");
    }

    #[test]
    fn a_curve_without_its_last_byte() {
        assert_eq!(part(10, FIVE), &FIVE[25..39]);
        let cut = Refusal::new(CUT, 11);
        assert_eq!(answers(10, FIVE), [Err(cut); 5]);
        let word = 5 * (1u64 << 32) + 11;
        assert_eq!(
            line(1, FIVE),
            format!("1 worth{}\n", format!(" {word}").repeat(5))
        );
    }

    #[test]
    fn a_curve_with_what_stands_after_it() {
        assert_eq!(part(5, FIVE), &FIVE[25..]);
        assert_eq!(answers(5, FIVE), [Err(Refusal::new(TAIL, 15)); 5]);
        // Nothing stands after the last job's.
        assert_eq!(part(11, FIVE), &FIVE[51..]);
        assert_eq!(answers(11, FIVE), FLAT);
    }

    #[test]
    fn a_book_without_the_record() {
        // There is no job 2.
        assert_eq!(part(2, FIVE), &FIVE[2..]);
        assert_eq!(part(18, FIVE), &FIVE[2..]);
        // From byte 3 on: two pieces, the second of which starts at 0xFF000000.
        assert_eq!(answers(3, FIVE), [Err(Refusal::new(RANGE, 11)); 5]);
        // From byte 4 on: one good piece that ends where it starts, and more.
        assert_eq!(answers(4, FIVE), [Err(Refusal::new(TAIL, 15)); 5]);
        // A refused one.
        assert_eq!(part(3, &[0, 1, 2, 3, 4]), [3, 4]);
        assert_eq!(part(5, &[0, 1, 2, 3, 4]), []);
        assert_eq!(part(9, &[0, 1, 2, 3, 4]), []);
        assert_eq!(answers(9, &[0, 1, 2, 3, 4]), [Err(Refusal::new(CUT, 0)); 5]);
    }

    #[test]
    fn the_moments() {
        let curve = |first: u32, last: u32| {
            let mut bytes = vec![1];
            bytes.extend(first.to_be_bytes());
            bytes.extend([0; 6]);
            bytes.extend(last.to_be_bytes());
            bytes
        };
        assert_eq!(moments(&curve(10, 21)), [9, 10, 15, 21, 22]);
        assert_eq!(moments(&curve(0, 0)), [0, 0, 0, 0, 1]);
        let top = u32::MAX;
        assert_eq!(moments(&curve(top, top)), [top - 1, top, top, top, top]);
        // Four bytes are a last field; a first start wants a fifth.
        assert_eq!(moments(&[0, 0, 0, 7]), [0, 0, 3, 7, 8]);
        assert_eq!(moments(&[0, 0, 7]), [0, 0, 0, 0, 1]);
        assert_eq!(moments(&[9, 0, 0, 0, 7]), [6, 7, 7, 7, 8]);
    }
}
