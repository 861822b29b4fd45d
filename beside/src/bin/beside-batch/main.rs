//! beside-batch [BATCHES] [SEED]: makes books from SEED, has the corpus program
//! print what the proved planner says of them, as many at a time as it has room
//! for, and compares every byte with what the second planner says. At the first
//! difference it prints the book in hex and both lines and exits with 1. It is
//! run at the repository root and needs `crates/corpus/out/corpus`, no archive.

mod arguments;
mod batch;
mod check;
mod program;

use batch::{Batch, Batches};
use beside::tally::Tally;
use program::{Program, Running};
use std::collections::VecDeque;
use std::process::ExitCode;
use std::time::Instant;

fn main() -> ExitCode {
    let arguments = arguments::read();
    let (batches, seed) = (arguments.batches, arguments.seed);
    println!("{batches} batches of books from seed {seed}, each plan replayed");
    match compare(batches, seed) {
        Ok(Some(said)) => println!("{said}"),
        Ok(None) => return ExitCode::from(1),
        Err(error) => {
            eprintln!("beside-batch: {error}");
            return ExitCode::from(2);
        }
    }
    ExitCode::SUCCESS
}

/// The closing line, or none after a difference.
fn compare(count: u64, seed: u64) -> std::io::Result<Option<String>> {
    let program = Program::new()?;
    let mut batches = Batches::new(seed);
    let mut tally = Tally::default();
    let mut books = 0;
    let begun = Instant::now();

    // While one batch is compared, the program is at work on later ones.
    let ahead = std::thread::available_parallelism().map_or(1, usize::from) as u64;
    let mut under_way: VecDeque<(Batch, Running)> = VecDeque::new();
    let mut started = 0;
    for at in 0..count {
        while started < count && started <= at + ahead {
            let batch = batches.next();
            let running = program.start(&batch)?;
            under_way.push_back((batch, running));
            started += 1;
        }
        let (batch, running) = under_way.pop_front().expect("it was started");
        let ended = running.end()?;
        if let Err((made, difference)) = check::check(&batch, &ended, &mut tally) {
            difference.print(seed, made);
            return Ok(None);
        }
        books += batch.books.len();
        if (at + 1) * 10 / count > at * 10 / count {
            let seconds = begun.elapsed().as_secs_f64();
            println!(
                "{} of {count} batches, {books} books, {seconds:.1} s",
                at + 1
            );
        }
    }
    tally.print();
    println!("left out, too long for the program: {}", batches.too_long);
    Ok(Some(format!(
        "no difference in {books} books from seed {seed} (corpus program)"
    )))
}
