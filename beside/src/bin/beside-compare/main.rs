//! beside-compare [COUNT] [SEED] [--replay]: makes COUNT books from SEED and
//! asks the proved planner and the second planner about each. At the first
//! difference it prints the book in hex and both answers and exits with 1.

mod arguments;
mod check;
mod crash;
mod curves;
mod questions;

use beside::difference::caught;
use beside::made::made;
use beside::tally::Tally;
use check::Checker;
use std::time::Instant;

fn main() {
    let arguments = arguments::read();
    let (count, seed) = (arguments.count, arguments.seed);
    let replay = if arguments.replay {
        ", each plan replayed"
    } else {
        ""
    };
    println!("{count} books from seed {seed}{replay}");

    crash::install();
    let mut checker = Checker::new(arguments.replay);
    let mut tally = Tally::default();
    let begun = Instant::now();
    for at in 0..count {
        let made = made(seed, at);
        crash::watch(&made.book);
        match caught(|| checker.check(&made.book, made.seed)) {
            Ok(met) => tally.add(made.kind, &met.planned, met.questions, &met.worths),
            Err(difference) => {
                difference.print(seed, &made);
                std::process::exit(1);
            }
        }
        // The book is dropped with this turn of the loop.
        crash::watch(&[]);
        // A line for each tenth shows that it moves and stays short in a log.
        if (at + 1) * 10 / count > at * 10 / count {
            let seconds = begun.elapsed().as_secs_f64();
            println!("{} of {count} books, {seconds:.1} s", at + 1);
        }
    }
    tally.print();
    println!("no difference in {count} books from seed {seed}");
}
