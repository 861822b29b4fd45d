//! The Markdown that goes into docs/BENCHMARK.md.

use crate::agree::RANDOM_BOOKS;
use crate::books::Set;
use crate::calls::Planner::{Plain, Proved, Second};
use crate::calls::Question::{First, Plan, Reading, Worth};
use crate::calls::{call, Asked, OF_BOOKS, OF_CURVES, PLANNERS};
use crate::curves::taken_apart;
use crate::stack::Painted;
use crate::time::{Times, ROUNDS};
use second::answer::MOST_BYTES;

/// What a column says of a set.
enum Cell {
    /// A mean over the items.
    Mean(fn(&[u8]) -> usize),
    Micros(Asked),
    Nanos(Asked),
    /// One call's time to another's, with so many digits.
    Ratio(Asked, Asked, usize),
}

use Cell::{Mean, Micros, Nanos, Ratio};

const PLANS: [(&str, Cell); 10] = [
    ("Bytes", Mean(<[u8]>::len)),
    ("Parts", Mean(parts)),
    ("Proved, µs", Micros((Proved, Plan))),
    ("Second, µs", Micros((Second, Plan))),
    ("Plain, µs", Micros((Plain, Plan))),
    ("Proved : plain", Ratio((Proved, Plan), (Plain, Plan), 2)),
    ("Second : plain", Ratio((Second, Plan), (Plain, Plan), 2)),
    ("Proved : second", Ratio((Proved, Plan), (Second, Plan), 3)),
    ("Reading, proved, µs", Micros((Proved, Reading))),
    (
        "Reading, proved : plain",
        Ratio((Proved, Reading), (Plain, Reading), 2),
    ),
];

const FIRST_PARTS: [(&str, Cell); 6] = [
    ("First part, proved, µs", Micros((Proved, First))),
    ("First part, second, µs", Micros((Second, First))),
    ("First part, plain, µs", Micros((Plain, First))),
    ("Proved : plain", Ratio((Proved, First), (Plain, First), 2)),
    (
        "First part : plan, proved",
        Ratio((Proved, First), (Proved, Plan), 3),
    ),
    ("Reading, proved, µs", Micros((Proved, Reading))),
];

const WORTHS: [(&str, Cell); 6] = [
    ("Bytes", Mean(|item| taken_apart(item).1.len())),
    ("Worth, proved, ns", Nanos((Proved, Worth))),
    ("Worth, second, ns", Nanos((Second, Worth))),
    ("Worth, plain, ns", Nanos((Plain, Worth))),
    ("Proved : plain", Ratio((Proved, Worth), (Plain, Worth), 2)),
    (
        "Proved : second",
        Ratio((Proved, Worth), (Second, Worth), 3),
    ),
];

pub fn head() {
    println!(
        "Processor: {}. The three planners first gave the same answers on every book and curve \
         below and on {RANDOM_BOOKS} random books and the curves in them.",
        processor()
    );
}

pub fn plans(books: &[Set], times: &[Times]) {
    print("Books | Jobs", &PLANS, books, times);
}

pub fn first_parts(books: &[Set], times: &[Times]) {
    print("Books | Jobs", &FIRST_PARTS, books, times);
}

pub fn worths(curves: &[Set], times: &[Times]) {
    print("Curves | Pieces", &WORTHS, curves, times);
}

/// A row for each set. `names` heads the first two columns.
fn print(names: &str, columns: &[(&str, Cell)], sets: &[Set], times: &[Times]) {
    println!();
    let heads: Vec<&str> = columns.iter().map(|(head, _)| *head).collect();
    println!("| {names} | {} |", heads.join(" | "));
    println!("|---|--:|{}", "--:|".repeat(columns.len()));
    for (set, times) in sets.iter().zip(times) {
        let cells = columns.iter().map(|(_, cell)| cell.text(set, times));
        let cells: Vec<String> = cells.collect();
        println!("| {} | {} | {} |", set.name, set.size, cells.join(" | "));
    }
}

impl Cell {
    fn text(&self, set: &Set, times: &Times) -> String {
        match *self {
            Mean(of) => mean(set, of).to_string(),
            Micros(asked) => format!("{:.2}", times.time(asked) / 1_000.0),
            Nanos(asked) => format!("{:.1}", times.time(asked)),
            Ratio(asked, to, digits) => format!("{:.digits$}", times.ratio(asked, to)),
        }
    }
}

fn mean(set: &Set, of: fn(&[u8]) -> usize) -> usize {
    let sum: usize = set.items.iter().map(|item| of(item)).sum();
    (sum + set.items.len() / 2) / set.items.len()
}

fn parts(book: &[u8]) -> usize {
    second::plan(book).map_or(0, |plan| plan.parts.len())
}

pub fn notes() {
    println!();
    println!(
        "Times are microseconds (µs) or nanoseconds (ns) of processor time for one call, the mean \
         over the row's 16 books or curves; medians of {ROUNDS} rounds in which the calls take \
         turns. A ratio is the median of the rounds' own ratios. Bytes and parts are means too. \
         Reading is the record question for job 255. A curve's worth is asked for at moments that \
         lie anywhere from its first start to its termination. The books, the curves and the one output of {MOST_BYTES} bytes were touched before and stay in \
         the cache; the output was not cleared between calls. The second planner is built for \
         release with its overflow checks, the plain one with -O3 and without."
    );
}

/// The deepest that each call went over all that it was asked about.
pub fn stack(books: &[Set], curves: &[Set]) {
    println!();
    let heads = PLANNERS.map(|planner| planner.name());
    println!("| Stack of one call, bytes | {} |", heads.join(" | "));
    println!("|---|{}", "--:|".repeat(heads.len()));
    let mut painted = Painted::new();
    let of_books = OF_BOOKS.map(|question| (question, books));
    let of_curves = OF_CURVES.map(|question| (question, curves));
    for (question, sets) in of_books.into_iter().chain(of_curves) {
        let depths = PLANNERS.map(|planner| deepest(&mut painted, sets, (planner, question)));
        let depths = depths.map(|depth| depth.to_string());
        println!("| {} | {} |", question.name(), depths.join(" | "));
    }
    println!();
    println!(
        "Measured by running the call on a stack of its own that was painted with a pattern \
         first, and looking how deep the paint is gone: the deepest over all books or curves \
         above, less what an empty function needs. Bytes that a call sets aside at the very bottom and never \
         writes are not seen. The second planner also uses the heap, which is not counted."
    );
}

fn deepest(painted: &mut Painted, sets: &[Set], asked: Asked) -> usize {
    let call = call(asked);
    let mut out = vec![0; MOST_BYTES];
    let items = sets.iter().flat_map(|set| &set.items);
    let depths = items.map(|item| painted.depth(&mut || _ = call(item, &mut out)));
    depths.max().unwrap_or(0)
}

/// The processor's name as the system gives it.
fn processor() -> String {
    let text = std::fs::read_to_string("/proc/cpuinfo").unwrap_or_default();
    text.lines()
        .find_map(|line| line.strip_prefix("model name")?.split_once(": "))
        .map_or("not known".to_string(), |(_, name)| name.to_string())
}
