//! Everything that is compared about one book.

use crate::curves::{copies, curves, moments, places};
use crate::questions::job_numbers;
use beside::code;
use beside::difference::{same, Difference};
use beside::fence::Fenced;
use beside::hex::hex;
use beside::proved;
use beside::replayed::{plan_of, replayed};
use beside::tally::Worths;
use second::answer::MOST_BYTES;
use second::book::Book;
use second::make::Dice;
use second::{Plan, Refusal};

/// Lengths of the output: none, one too few, just enough, one more, larger.
/// The plan call is thus made several times about one book, and what it leaves
/// behind from one call to the next would show.
const OUTPUTS: [usize; 5] = [0, MOST_BYTES - 1, MOST_BYTES, MOST_BYTES + 1, LARGEST];
const LARGEST: usize = 1_000;

/// Bytes before the lent output, which no call may touch either.
const MARGIN: usize = 64;

/// The longest book that `second::make` makes is shorter.
const LONGEST_BOOK: usize = 1 << 17;
/// Eight pieces and a byte more are shorter.
const LONGEST_CURVE: usize = 128;

/// What one book brought, for the tally.
pub struct Met {
    pub planned: Result<Plan, Refusal>,
    /// How many job numbers were asked for.
    pub questions: u64,
    pub worths: Worths,
}

pub struct Checker {
    replay: bool,
    book: Fenced,
    curve: Fenced,
    output: Fenced,
}

impl Checker {
    pub fn new(replay: bool) -> Checker {
        Checker {
            replay,
            book: Fenced::new(LONGEST_BOOK),
            curve: Fenced::new(LONGEST_CURVE),
            output: Fenced::new(MARGIN + LARGEST),
        }
    }

    /// `seed` says how the book's curves are damaged.
    pub fn check(&mut self, book: &[u8], seed: u64) -> Result<Met, Difference> {
        self.book.last(book.len()).copy_from_slice(book);
        let mut answer = [0; MOST_BYTES];
        let verdict = second::answer(book, &mut answer);

        for length in OUTPUTS {
            let (code, bytes) = match verdict {
                _ if length < MOST_BYTES => {
                    let short = second::answer(book, &mut vec![0; length]);
                    (code::of_plan(&short), None)
                }
                Ok(filled) => (0, Some(&answer[..filled])),
                Err(refusal) => (code::of_refusal(refusal), None),
            };
            self.plan(book.len(), length, code, bytes)?;
        }
        // What the last call wrote still stands there.
        let planned = match verdict {
            Ok(_) => Ok(plan_of(self.output.last(LARGEST))?),
            Err(refusal) => Err(refusal),
        };
        if let (Ok(plan), true) = (&planned, self.replay) {
            replayed(book, plan)?;
        }
        let read = second::book::read(book);
        let questions = self.records(book, &read)?;
        self.first(book, &planned)?;
        let worths = self.worths(book, &read, &mut Dice::new(seed))?;

        // The book is lent to be read alone.
        same(
            book,
            &*self.book.last(book.len()),
            || "the book's bytes after all calls".to_string(),
            hex,
        )?;
        Ok(Met {
            planned,
            questions,
            worths,
        })
    }

    /// The plan call into `length` bytes that hold a pattern: its number must be
    /// `code`, and the bytes must be `bytes` and then the pattern still.
    fn plan(
        &mut self,
        book_length: usize,
        length: usize,
        code: u64,
        bytes: Option<&[u8]>,
    ) -> Result<(), Difference> {
        let whole = self.output.last(MARGIN + length);
        for (at, byte) in whole.iter_mut().enumerate() {
            *byte = pattern(at, length);
        }
        let mut expected = whole.to_vec();
        let bytes = bytes.unwrap_or(&[]);
        expected[MARGIN..MARGIN + bytes.len()].copy_from_slice(bytes);

        let got = proved::plan(self.book.last(book_length), &mut whole[MARGIN..]);
        same(
            code,
            got,
            || format!("the plan's verdict, {length} bytes of output"),
            code::plan_in_words,
        )?;
        same(
            &expected[..MARGIN],
            &whole[..MARGIN],
            || format!("the bytes before {length} bytes of output"),
            hex,
        )?;
        same(
            &expected[MARGIN..],
            &whole[MARGIN..],
            || {
                format!(
                    "the {length} bytes of output, {} of them the answer",
                    bytes.len()
                )
            },
            hex,
        )
    }

    /// The record question, and how many numbers were asked for.
    fn records(&mut self, book: &[u8], read: &Result<Book, Refusal>) -> Result<u64, Difference> {
        // `second::record` would read the whole book again for each number.
        let lent = &*self.book.last(book.len());
        let mut asked = 0;
        for job in job_numbers(book) {
            let expected = match read {
                Ok(read) => code::of_record(read.records.get(job)),
                Err(refusal) => code::of_refusal(*refusal),
            };
            same(
                expected,
                proved::record(lent, job),
                || format!("the record question for job {job}"),
                code::record_in_words,
            )?;
            asked += 1;
        }
        Ok(asked)
    }

    /// The question of the first part, by both planners, and beside the proved
    /// planner's own plan.
    fn first(&mut self, book: &[u8], planned: &Result<Plan, Refusal>) -> Result<(), Difference> {
        let second = code::of_first(&second::first(book));
        same(
            second,
            proved::first(self.book.last(book.len())),
            || "the first part".to_string(),
            code::first_in_words,
        )?;
        let of_plan = match planned {
            Ok(plan) => Ok(plan.parts.first().cloned()),
            Err(refusal) => Err(*refusal),
        };
        same(
            second,
            code::of_first(&of_plan),
            || "the first part, beside the plan's".to_string(),
            code::first_in_words,
        )
    }

    /// The worth call: about the curves of some jobs, good and damaged, and about
    /// the book's own bytes.
    fn worths(
        &mut self,
        book: &[u8],
        read: &Result<Book, Refusal>,
        dice: &mut Dice,
    ) -> Result<Worths, Difference> {
        let mut met = Worths::default();
        if let Ok(read) = read {
            for curve in curves(book, read) {
                for copy in copies(curve, dice) {
                    let lent = self.curve.last(copy.len());
                    lent.copy_from_slice(&copy);
                    worth(&copy, lent, &mut met)?;
                }
            }
        }
        for place in places(book, dice) {
            let lent = self.book.last(book.len() - place);
            worth(&book[place..], lent, &mut met)?;
        }
        Ok(met)
    }
}

/// The worth of bytes that are also lent up to the fence, at each moment.
fn worth(part: &[u8], lent: &[u8], met: &mut Worths) -> Result<(), Difference> {
    let refused = second::curve_worth(part, 0).is_err();
    for t in moments(part, refused) {
        let second = second::curve_worth(part, t);
        same(
            code::of_worth(&second),
            proved::worth(lent, t),
            || format!("the worth at {t} of the curve {}", hex(part)),
            code::worth_in_words,
        )?;
        met.add(&second);
    }
    same(
        part,
        lent,
        || "the curve's bytes after all calls".to_string(),
        hex,
    )
}

/// The byte that an output of some length holds at a place before the call.
/// It differs from one length to another, so that a byte which is written over
/// with the very value that it had is still found.
fn pattern(at: usize, length: usize) -> u8 {
    (at * 7 + length * 31 + 3) as u8
}
