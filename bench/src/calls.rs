//! The calls that are measured: four questions to three planners.

use crate::curves::taken_apart;
use crate::plain;
use beside::code;
use beside::proved;
use second::Refusal;
use std::ops::Range;
use Planner::{Plain, Proved, Second};
use Question::{First, Plan, Reading, Worth};

#[derive(Clone, Copy, PartialEq)]
pub enum Planner {
    Proved,
    Second,
    Plain,
}

#[derive(Clone, Copy, PartialEq)]
pub enum Question {
    Plan,
    First,
    /// The record question for a job number past all: nothing but reading.
    Reading,
    /// The worth of one curve at a moment.
    Worth,
}

/// Who is asked what.
pub type Asked = (Planner, Question);

pub const PLANNERS: [Planner; 3] = [Proved, Second, Plain];
/// What is asked about a book, and what about a curve.
pub const OF_BOOKS: [Question; 3] = [Plan, First, Reading];
pub const OF_CURVES: [Question; 1] = [Worth];

const PAST_ALL: usize = 255;

/// Each call gets a book, or a moment and a curve (see `curves`), and a lent
/// output, which only a plan is written to. It gives the number that C gets.
pub type Call = fn(&[u8], &mut [u8]) -> u64;

pub fn call(asked: Asked) -> Call {
    match asked {
        (Proved, Plan) => proved::plan,
        (Second, Plan) => |book, out| code::of_plan(&second::answer(book, out)),
        (Plain, Plan) => plain::plan,
        (Proved, First) => |book, _| proved::first(book),
        (Second, First) => |book, _| code::of_first(&second::first(book)),
        (Plain, First) => |book, _| plain::first(book),
        (Proved, Reading) => |book, _| proved::record(book, PAST_ALL),
        (Second, Reading) => |book, _| record_code(second::record(book, PAST_ALL)),
        (Plain, Reading) => |book, _| plain::record(book, PAST_ALL),
        (Proved, Worth) => |item, _| worth(item, proved::worth),
        (Second, Worth) => |item, _| {
            worth(item, |curve, t| {
                code::of_worth(&second::curve_worth(curve, t))
            })
        },
        (Plain, Worth) => |item, _| worth(item, plain::worth),
    }
}

#[inline]
fn worth(item: &[u8], call: impl Fn(&[u8], u32) -> u64) -> u64 {
    let (t, curve) = taken_apart(item);
    call(curve, t)
}

fn record_code(found: Result<Option<Range<usize>>, Refusal>) -> u64 {
    match found {
        Ok(range) => code::of_record(range.as_ref()),
        Err(refusal) => code::of_refusal(refusal),
    }
}

impl Planner {
    pub fn name(self) -> &'static str {
        match self {
            Proved => "Proved",
            Second => "Second",
            Plain => "Plain",
        }
    }
}

impl Question {
    pub fn name(self) -> &'static str {
        match self {
            Plan => "plan",
            First => "first part",
            Reading => "record question",
            Worth => "worth of a curve",
        }
    }

    /// The number of its call in words.
    pub fn in_words(self, number: u64) -> String {
        match self {
            Plan => code::plan_in_words(number),
            First => code::first_in_words(number),
            Reading => code::record_in_words(number),
            Worth => code::worth_in_words(number),
        }
    }
}
