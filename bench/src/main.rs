//! Times the calls of the proved planner, of the second one and of a plain
//! optimised one in one run, and prints the tables for docs/BENCHMARK.md.

mod agree;
mod books;
mod calls;
mod clock;
mod curves;
mod plain;
mod stack;
mod table;
mod time;

use books::Set;
use calls::{Question, OF_BOOKS, OF_CURVES};
use time::Times;

fn main() {
    let (books, curves) = (books::sets(), curves::sets());
    eprintln!("comparing the answers first");
    if let Err(difference) = agree::check(&books, &curves) {
        eprintln!("bench: nothing is printed, since {difference}");
        std::process::exit(1);
    }
    eprintln!("measuring");
    let times = measured(&books, &OF_BOOKS);
    let curve_times = measured(&curves, &OF_CURVES);
    table::head();
    table::plans(&books, &times);
    table::first_parts(&books, &times);
    table::worths(&curves, &curve_times);
    table::notes();
    table::stack(&books, &curves);
}

fn measured(sets: &[Set], questions: &[Question]) -> Vec<Times> {
    let measure = |set| time::measure(set, questions);
    sets.iter().map(measure).collect()
}
