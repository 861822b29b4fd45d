//! second-selfcheck [COUNT] [SEED]: makes COUNT books, asks every public call
//! about each, asserts demand 3 on each plan, and prints what it met. At the
//! first fault it prints the book in hex and exits with 1.

use second::book::{self, LAST_TIME};
use second::make;
use second::refusal::{self, Refusal};
use second::replay::Machine;
use second::rounds;
use second::worth::worth;
use second::{
    answer, check_demand3, curve_worth, first, first_listing, listing, plan, record, Plan,
};

fn main() {
    let mut arguments = std::env::args().skip(1);
    let count = number(arguments.next(), 10_000);
    let seed = number(arguments.next(), 1);

    let mut tally = Tally::default();
    for at in 0..count {
        let seed = seed.wrapping_add(at);
        let (kind, book) = match at % 10 {
            0..=6 => ("valid", make::valid(seed)),
            7..=8 => ("damaged", make::damaged(seed)),
            _ => ("noise", make::noise(seed)),
        };
        // A panic is a fault like any other: the book must be shown.
        let checked = std::panic::catch_unwind(|| check(kind, &book));
        match checked.unwrap_or_else(|_| Err("a call panicked".to_string())) {
            Ok(planned) => tally.add(&book, &planned),
            Err(fault) => {
                println!("fault in {kind} book of seed {seed}: {fault}");
                println!("{}", hex(&book));
                std::process::exit(1);
            }
        }
    }
    tally.print(count);
}

fn number(argument: Option<String>, otherwise: u64) -> u64 {
    match argument {
        None => otherwise,
        Some(text) => text.parse().unwrap_or_else(|_| {
            eprintln!("second-selfcheck: not a number: {text}");
            std::process::exit(2);
        }),
    }
}

fn hex(bytes: &[u8]) -> String {
    let pairs: Vec<String> = bytes.iter().map(|byte| format!("{byte:02X}")).collect();
    pairs.join(" ")
}

type Planned = Result<Plan, Refusal>;

fn check(kind: &str, book: &[u8]) -> Result<Planned, String> {
    let planned = plan(book);
    if let Ok(plan) = &planned {
        check_demand3(book, plan)?;
        // The last finish of a plan is inside a curve, and a curve ends by then.
        that(plan.end <= LAST_TIME, "a plan ends past the last book time")?;
    }
    if let (Err(refused), "valid") = (&planned, kind) {
        that(
            refused.number == refusal::KNOT,
            &format!("a valid book was refused: {refused:?}"),
        )?;
    }
    check_answer(book, &planned)?;
    check_listing(book, &planned)?;
    check_first(book, &planned)?;
    check_records(book, &planned)?;
    check_worths(book)?;
    Ok(planned)
}

/// The answer's bytes say what the plan says, later bytes keep their values,
/// and a refusal writes nothing.
fn check_answer(book: &[u8], planned: &Planned) -> Result<(), String> {
    let before: Vec<u8> = (0..440u32).map(|at| (at * 7 + 3) as u8).collect();
    let mut out = before.clone();
    match (answer(book, &mut out), planned) {
        (Ok(length), Ok(plan)) => {
            that(
                out[length..] == before[length..],
                "the answer wrote past its end",
            )?;
            that(
                decode(&out[..length]).as_ref() == Some(plan),
                "the answer is not the plan",
            )?;
        }
        (Err(refused), Err(expected)) => {
            that(refused == *expected, "the answer's refusal differs")?;
            that(out == before, "a refused book was written about")?;
        }
        _ => return Err("the answer and the plan disagree on refusing".to_string()),
    }
    let mut short = vec![9; 429];
    that(
        answer(book, &mut short) == Err(Refusal::new(refusal::ROOM, 0)),
        "no ROOM in 429 bytes",
    )?;
    that(short == vec![9; 429], "ROOM wrote something")
}

/// Reads an answer back.
fn decode(bytes: &[u8]) -> Option<Plan> {
    let mut bytes = bytes.iter().copied();
    let mut take = |width: usize| -> Option<i64> {
        let mut sum = 0;
        for _ in 0..width {
            sum = sum * 256 + i64::from(bytes.next()?);
        }
        Some(sum)
    };
    let length = take(2)?;
    if take(1)? != 1 {
        return None;
    }
    let mut victims = Vec::new();
    for _ in 0..take(1)? {
        victims.push(take(1)? as usize);
    }
    let mut parts = Vec::new();
    for _ in 0..take(1)? {
        let job = take(1)? as usize;
        let rollback = take(1)? == 1;
        parts.push(second::Part {
            job,
            rollback,
            time: take(2)?,
        });
    }
    let rounds = take(1)? as usize;
    let total = i64::from(take(4)? as u32 as i32);
    let end = take(4)?;
    if take(1).is_some() || length != 14 + victims.len() as i64 + 4 * parts.len() as i64 {
        return None;
    }
    Some(Plan {
        victims,
        parts,
        rounds,
        total,
        end,
    })
}

fn check_listing(book: &[u8], planned: &Planned) -> Result<(), String> {
    let text = listing(book);
    match planned {
        Err(refused) => that(
            text == format!("refused {} at {}\n", refused.number, refused.place),
            "the listing's refusal differs",
        ),
        Ok(plan) => {
            that(
                text.lines().count() == plan.parts.len() + 2,
                "the listing's lines are off",
            )?;
            let last = format!(
                "total {} end {} rounds {}",
                plan.total, plan.end, plan.rounds
            );
            that(
                text.lines().last() == Some(last.as_str()),
                "the listing's last line is off",
            )
        }
    }
}

/// The first part is the plan's, and its line is the listing's; a refusal is the
/// plan's too.
fn check_first(book: &[u8], planned: &Planned) -> Result<(), String> {
    let expected = planned.as_ref().map(|plan| plan.parts.first());
    that(
        first(book).as_ref().map(Option::as_ref) == expected,
        "the first part is not the plan's",
    )?;
    let text = listing(book);
    let line = match expected {
        Ok(None) => Some("nothing"),
        Ok(Some(_)) => text.lines().nth(1),
        Err(_) => text.lines().next(),
    };
    that(
        first_listing(book).strip_suffix('\n') == line,
        "the first part's line is not the listing's",
    )
}

/// The records stand one after another from the header to the book's end.
fn check_records(book: &[u8], planned: &Planned) -> Result<(), String> {
    if let Err(refused) = planned {
        if refused.number != refusal::KNOT {
            for job in [0, 31, 32, usize::MAX] {
                that(
                    record(book, job) == Err(*refused),
                    "the record question's refusal differs",
                )?;
            }
            return Ok(());
        }
    }
    let mut place = 9;
    for job in 0..usize::from(book[3]) {
        match record(book, job) {
            Ok(Some(range)) if range.start == place => place = range.end,
            other => return Err(format!("record {job} is {other:?}")),
        }
    }
    that(place == book.len(), "the records don't fill the book")?;
    for job in [usize::from(book[3]), 255, usize::MAX] {
        that(record(book, job) == Ok(None), "a record past the count")?;
    }
    Ok(())
}

/// A curve that is read alone is worth what it is in the book, and it ends where
/// its record does. So bytes that are too few or too many are refused.
fn check_worths(book: &[u8]) -> Result<(), String> {
    let Ok(read) = book::read(book) else {
        return Ok(());
    };
    for (job, range) in read.jobs.iter().zip(&read.records) {
        let first = range.start + 11 + 5 * job.held.len();
        let (bytes, curve) = (&book[first..range.end], &job.curve);
        let starts = curve.pieces.iter().map(|piece| piece.start);
        for edge in starts.chain([curve.termination]) {
            for t in [(edge - 1).max(0), edge, edge + 1] {
                that(
                    curve_worth(bytes, t as u32) == Ok(worth(curve, t)),
                    "a curve's worth alone and in the book differ",
                )?;
            }
        }
        that(
            curve_worth(&bytes[..bytes.len() - 1], 0)
                == Err(Refusal::new(refusal::CUT, bytes.len() - 4)),
            "a curve without its last byte is not CUT at termination",
        )?;
        let more = [bytes, &[0]].concat();
        that(
            curve_worth(&more, 0) == Err(Refusal::new(refusal::TAIL, bytes.len())),
            "no TAIL after a curve",
        )?;
    }
    Ok(())
}

fn that(sentence: bool, fault: &str) -> Result<(), String> {
    if sentence {
        Ok(())
    } else {
        Err(fault.to_string())
    }
}

/// What was met, so that one can see whether the books were worth making.
#[derive(Default)]
struct Tally {
    refused: [u64; 11],
    accepted: u64,
    empty: u64,
    with_victims: u64,
    most_victims: usize,
    normal_parts: u64,
    rollback_parts: u64,
    split_jobs: u64,
    most_parts: usize,
    most_rounds: usize,
    ends_last: u64,
    leaves_outside: u64,
}

impl Tally {
    fn add(&mut self, book: &[u8], planned: &Planned) {
        let plan = match planned {
            Ok(plan) => plan,
            Err(refused) => {
                self.refused[usize::from(refused.number)] += 1;
                return;
            }
        };
        self.accepted += 1;
        self.empty += u64::from(plan.parts.is_empty());
        self.with_victims += u64::from(!plan.victims.is_empty());
        self.most_victims = self.most_victims.max(plan.victims.len());
        let mut times = [0u64; 32];
        for part in &plan.parts {
            times[part.job] += 1;
            if part.rollback {
                self.rollback_parts += 1;
            } else {
                self.normal_parts += 1;
            }
        }
        self.split_jobs += times.iter().filter(|&&parts| parts > 1).count() as u64;
        self.most_parts = self.most_parts.max(plan.parts.len());
        self.most_rounds = self.most_rounds.max(plan.rounds);
        self.ends_last += u64::from(plan.rounds > 0 && plan.end == LAST_TIME);
        self.leaves_outside += u64::from(leaves_outside(book, plan));
    }

    fn print(&self, count: u64) {
        println!("books {count}");
        println!("accepted {} (with no part {})", self.accepted, self.empty);
        for number in 1..=10u8 {
            let name = refusal::name(number);
            println!(
                "refused {number} {name}: {}",
                self.refused[usize::from(number)]
            );
        }
        println!(
            "with victims {}, most victims {}",
            self.with_victims, self.most_victims
        );
        println!(
            "normal parts {}, rollback parts {}",
            self.normal_parts, self.rollback_parts
        );
        println!("jobs in several parts {}", self.split_jobs);
        println!(
            "most parts {}, most rounds {}",
            self.most_parts, self.most_rounds
        );
        println!("plans to the last book time {}", self.ends_last);
        println!(
            "plans that leave a job whose group is no candidate {}",
            self.leaves_outside
        );
        println!("no fault");
    }
}

/// Whether a job is left at the end whose group is no candidate (02, R-7).
fn leaves_outside(book: &[u8], plan: &Plan) -> bool {
    let book = book::read(book).expect("it was planned");
    let mut machine = Machine::begin(book.now, &book.jobs, &plan.victims);
    for part in &plan.parts {
        machine.follow(part);
    }
    let jobs = machine.jobs();
    (0..jobs.len())
        .filter(|&last| jobs[last].is_left())
        .filter_map(|last| rounds::group(&jobs, machine.clock, last))
        .any(|group| group.gain.utility.is_none())
}
