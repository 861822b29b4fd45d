//! The benchmark's books.

use second::book::{Claim, Curve, Job, Piece};
use second::make::{bytes_of, Dice};

/// How many books there are of each kind: a processor soon knows one book by
/// heart, so each time is the mean over several.
pub const OF_A_KIND: u64 = 16;

/// A row of a table.
pub struct Set {
    pub name: &'static str,
    /// The jobs of each book, or the pieces of each curve.
    pub size: usize,
    /// The bytes that each call gets: a book, or what `curves` makes.
    pub items: Vec<Vec<u8>>,
    /// Whether each of them is refused.
    pub refused: bool,
}

#[derive(Clone, Copy)]
enum Shape {
    Independent,
    Random,
    Chain,
    /// A chain in which every other job is late.
    HalfLate,
    /// Circles of so many jobs.
    Circles(usize),
}

pub fn sets() -> Vec<Set> {
    let mut sets = vec![set("independent", Shape::Independent, 1)];
    for (name, shape) in [
        ("independent", Shape::Independent),
        ("random sharing", Shape::Random),
        ("one chain", Shape::Chain),
        ("circles of three", Shape::Circles(3)),
    ] {
        for jobs in [9, 30, 32] {
            sets.push(set(name, shape, jobs));
        }
    }
    sets.push(set("one circle", Shape::Circles(32), 32));
    sets.push(set("chain, half late", Shape::HalfLate, 32));
    for jobs in [1, 30] {
        sets.push(spoilt(set("refused at its end", Shape::Independent, jobs)));
    }
    sets
}

/// The same books, refused at their last field: a termination before the last
/// start, so that all of the book is read first.
fn spoilt(mut set: Set) -> Set {
    for book in &mut set.items {
        let end = book.len();
        book[end - 4..].fill(0);
    }
    set.refused = true;
    set
}

fn set(name: &'static str, shape: Shape, jobs: usize) -> Set {
    Set {
        name,
        size: jobs,
        items: (0..OF_A_KIND).map(|seed| book(shape, jobs, seed)).collect(),
        refused: false,
    }
}

fn book(shape: Shape, count: usize, seed: u64) -> Vec<u8> {
    let mut dice = Dice::new(seed);
    let now = 1_000_000;
    let mut jobs: Vec<Job> = (0..count).map(|_| alone(&mut dice, now)).collect();
    let mut order: Vec<usize> = (0..count).collect();
    dice.shuffle(&mut order);
    match shape {
        Shape::Independent => {}
        Shape::Random => {
            for resource in 0..count {
                let holder = dice.below(count);
                hold(&mut dice, &mut jobs[holder], resource);
            }
            for job in &mut jobs {
                if dice.chance(60) {
                    let resource = dice.below(count);
                    request(&mut dice, job, resource);
                }
            }
        }
        Shape::Chain => chain(&mut dice, &mut jobs, &order),
        Shape::HalfLate => {
            chain(&mut dice, &mut jobs, &order);
            for number in order.iter().skip(1).step_by(2) {
                late(&mut jobs[*number], now);
            }
        }
        Shape::Circles(size) => {
            for (at, &number) in order.iter().enumerate() {
                let first = at / size * size;
                let length = size.min(count - first);
                let job = &mut jobs[number];
                hold(&mut dice, job, at);
                request(&mut dice, job, first + (at - first + 1) % length);
            }
        }
    }
    bytes_of(now, count, &jobs)
}

/// A job that shares nothing: up to 200 ms of run time, and a curve that falls
/// in three pieces over some seconds.
fn alone(dice: &mut Dice, now: i64) -> Job {
    let high = dice.between(200, 5_000);
    let piece = |start: i64, value: i64, slope: i64| Piece {
        start: now + start,
        value,
        slope,
    };
    let bend = dice.between(200, 1_000);
    Job {
        in_rollback: false,
        run: dice.between(5, 200),
        rollback: dice.between(5, 60),
        request: None,
        held: Vec::new(),
        curve: Curve {
            pieces: vec![
                piece(0, high, 0),
                piece(bend, high, -1),
                piece(bend + 150, high / 2, 0),
            ],
            termination: now + dice.between(3_000, 9_000),
        },
    }
}

/// Each job holds a resource and requests that of the one before it.
fn chain(dice: &mut Dice, jobs: &mut [Job], order: &[usize]) {
    for (at, &number) in order.iter().enumerate() {
        hold(dice, &mut jobs[number], at);
        if at > 0 {
            request(dice, &mut jobs[number], at - 1);
        }
    }
}

/// Moves a job's curve back until it is over, and makes its holds as long as its
/// run: it can finish only at moments with none (R-7 of 02), so its own group is
/// never a candidate, and the others' are only where it rolls back.
fn late(job: &mut Job, now: i64) {
    let over = job.curve.termination - now;
    for piece in &mut job.curve.pieces {
        piece.start -= over;
    }
    job.curve.termination = now;
    for held in &mut job.held {
        held.hold = job.run;
    }
}

fn hold(dice: &mut Dice, job: &mut Job, resource: usize) {
    job.held.push(Claim {
        resource,
        hold: dice.between(1, job.run),
        rollback: dice.between(1, job.rollback),
    });
}

fn request(dice: &mut Dice, job: &mut Job, resource: usize) {
    job.request = Some(Claim {
        resource,
        hold: dice.between(1, job.run),
        rollback: dice.between(1, 60),
    });
}
