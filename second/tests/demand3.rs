//! The replay machine, and that the check of demand 3 finds what is wrong.

mod common;
use common::{book, job, parts, stated, BookOf, NEVER};
use second::book::read;
use second::make::{self, Dice};
use second::replay::Machine;
use second::{check_demand3, plan, Part, Plan};

/// The check must fail, and for the reason named.
fn fault(book: &BookOf, plan: Plan, reason: &str) {
    match check_demand3(&book.bytes(), &plan) {
        Ok(()) => panic!("not found: {reason}"),
        Err(fault) => assert!(fault.contains(reason), "{fault:?} is not {reason:?}"),
    }
}

fn two() -> BookOf {
    book(0).job(job(10, 50)).job(job(4, 40))
}

/// Case 5 of 01 in short.
fn shared() -> BookOf {
    book(1)
        .job(job(6, 0).rollback(2).holds(0, 6, 2))
        .job(job(5, 22).requests(0, 5, 1))
}

#[test]
fn an_empty_or_shortened_plan() {
    fault(
        &two(),
        stated(&[], "", 0, 0, 0),
        "has a candidate group worth",
    );
    fault(
        &two(),
        stated(&[], "1 N 4", 40, 4, 1),
        "has a candidate group worth",
    );
    fault(
        &shared(),
        stated(&[], "0 A 2", 0, 2, 1),
        "has a candidate group worth",
    );
}

/// 02, R-7: job 1 waits for all that job 0 has to run, and job 0 can't be rolled
/// back. Its curve ends at 10, when it would finish, or before.
fn behind(termination: u32) -> BookOf {
    book(1)
        .job(
            job(10, 0)
                .never()
                .holds(0, 10, NEVER)
                .terminates(termination),
        )
        .job(job(5, 22).requests(0, 5, 1))
}

#[test]
fn a_finish_outside_its_curve() {
    let planned = || stated(&[], "0 N 10, 1 N 5", 22, 15, 1);
    let passes = |book: &BookOf| check_demand3(&book.bytes(), &planned());
    assert_eq!(passes(&behind(10)), Ok(()));
    fault(&behind(9), planned(), "part 0 ");
    fault(&behind(9), planned(), "finishes at 10, outside its curve");

    // The last part, one ms after its termination and one before its start.
    let last = |start: u32, termination: u32| {
        let waits = job(5, 0).requests(0, 5, 1);
        book(1)
            .job(job(10, 0).never().holds(0, 10, NEVER))
            .job(waits.curve(&[(start, 22, 0)], termination))
    };
    assert_eq!(passes(&last(15, 15)), Ok(()));
    for (start, termination) in [(0, 14), (14, 14), (16, 16), (16, 1_000)] {
        let outside = last(start, termination);
        fault(&outside, planned(), "part 1 ");
        fault(&outside, planned(), "finishes at 15, outside its curve");
    }
    // Whatever total is stated: it is not for the total that it is refused.
    fault(
        &last(16, 16),
        stated(&[], "0 N 10, 1 N 5", 0, 15, 1),
        "outside its curve",
    );
}

#[test]
fn what_finishes_nothing_and_what_rolls_back_is_not_outside() {
    // Job 0's curve is over at once. By 4 ms it frees r0 and goes on later.
    let frees = book(1)
        .job(job(10, 9).rollback(3).holds(0, 4, 3).terminates(0))
        .job(job(5, 22).requests(0, 5, 1));
    for text in ["0 N 4, 1 N 5", "0 A 3, 1 N 5"] {
        let planned = parts(text);
        let end = planned.iter().map(|part| part.time).sum();
        let plan = stated(&[], text, 22, end, 1);
        assert_eq!(check_demand3(&frees.bytes(), &plan), Ok(()));
    }
}

#[test]
fn a_candidate_that_was_left() {
    // At 10 the group of job 1 is a candidate, before it is none.
    let ended = || stated(&[], "", 0, 0, 0);
    fault(&behind(10), ended(), "job 1 has a candidate group worth 22");
    assert_eq!(check_demand3(&behind(9).bytes(), &ended()), Ok(()));
    // Only beside one that is none.
    let beside = behind(9).job(job(5, 1));
    fault(&beside, ended(), "job 2 has a candidate group worth 1");
    let planned = stated(&[], "2 N 5", 1, 5, 1);
    assert_eq!(check_demand3(&beside.bytes(), &planned), Ok(()));
}

#[test]
fn a_wrong_total_end_or_rounds() {
    fault(&two(), stated(&[], "1 N 4, 0 N 10", 91, 14, 2), "paid 90");
    fault(
        &two(),
        stated(&[], "1 N 4, 0 N 10", 90, 15, 2),
        "ends at 14",
    );
    fault(
        &two(),
        stated(&[], "1 N 4, 0 N 10", 90, 14, 3),
        "more rounds than jobs",
    );
}

#[test]
fn a_part_that_is_too_long() {
    fault(
        &two(),
        stated(&[], "1 N 5, 0 N 10", 90, 15, 2),
        "run time left",
    );
    fault(
        &shared(),
        stated(&[], "0 A 3, 1 N 5", 22, 8, 1),
        "rollback time left",
    );
    fault(&two(), stated(&[], "1 N 0", 0, 0, 0), "no time");
    fault(&two(), stated(&[], "1 N -1", 0, -1, 0), "no time");
}

#[test]
fn a_part_of_a_finished_or_missing_job() {
    fault(&two(), stated(&[], "1 N 4, 1 N 1", 40, 5, 2), "is finished");
    fault(
        &shared(),
        stated(&[], "0 A 2, 0 A 1", 0, 3, 1),
        "is finished",
    );
    fault(&two(), stated(&[], "2 N 1", 0, 1, 1), "no such job");
}

#[test]
fn running_while_another_holds() {
    fault(&shared(), stated(&[], "1 N 5", 22, 5, 1), "job 0 holds r0");
    fault(
        &shared(),
        stated(&[], "0 A 1, 1 N 5", 22, 6, 1),
        "job 0 holds r0",
    );
    fault(
        &shared(),
        stated(&[], "0 N 5, 1 N 5", 22, 10, 1),
        "job 0 holds r0",
    );
}

#[test]
fn running_normally_after_rollback() {
    let split = book(1)
        .job(job(6, 9).rollback(4).holds(0, 6, 2))
        .job(job(5, 22).requests(0, 5, 1));
    fault(
        &split,
        stated(&[], "0 A 2, 1 N 5, 0 N 6", 31, 13, 2),
        "is in rollback",
    );
    let victim = book(1).job(job(6, 9).holds(0, 6, 1).requests(0, 6, 1));
    fault(&victim, stated(&[0], "0 N 6", 9, 6, 1), "is in rollback");
}

#[test]
fn rolling_back_what_can_not_be() {
    let never = book(1)
        .job(job(6, 0).never().holds(0, 6, NEVER))
        .job(job(5, 22).requests(0, 5, 1));
    fault(
        &never,
        stated(&[], "0 A 2, 1 N 5", 22, 7, 1),
        "can't be rolled back",
    );
}

#[test]
fn missing_or_impossible_victims() {
    let circle = book(1).job(job(6, 9).holds(0, 6, 1).requests(0, 6, 1));
    assert_eq!(
        check_demand3(&circle.bytes(), &stated(&[0], "", 0, 0, 0)),
        Ok(())
    );
    fault(&circle, stated(&[], "", 0, 0, 0), "waits in a circle");
    // A job that runs on what it already holds gives it two entries.
    fault(
        &circle,
        stated(&[], "0 N 1", 0, 1, 1),
        "r0 is held by [0, 0]",
    );
    fault(&circle, stated(&[1], "", 0, 0, 0), "victim 1 is no job");
}

#[test]
fn a_refused_book_has_no_plan() {
    let empty = stated(&[], "", 0, 0, 0);
    assert!(check_demand3(&[], &empty).is_err());
    let knot = book(1).job(job(6, 9).never().holds(0, 6, NEVER).requests(0, 6, 1));
    assert!(check_demand3(&knot.bytes(), &empty).is_err());
}

fn machine(book: &BookOf, victims: &[usize]) -> Machine {
    let book = read(&book.bytes()).unwrap();
    Machine::begin(book.now, &book.jobs, victims)
}

#[test]
fn the_machine_asks_no_one() {
    // Job 1 runs although job 0 holds r0: then both hold it.
    let mut machine = machine(&shared(), &[]);
    machine.follow(&parts("1 N 2")[0]);
    assert_eq!(machine.clock, 2);
    assert_eq!(machine.stations[0].holds[0].hold, 6);
    assert_eq!(machine.stations[1].holds[0].hold, 3);
    assert_eq!(machine.stations[1].run_left, 3);
    assert_eq!(machine.stations[1].rollback_left, 2);
    assert!(machine.stations[1].request.is_none());
    assert_eq!(machine.paid, 0);
    // It pays where the run time ends, and once.
    machine.follow(&parts("1 N 3")[0]);
    machine.follow(&parts("1 N 3")[0]);
    assert_eq!((machine.paid, machine.clock), (22, 8));
    assert!(machine.stations[1].holds.is_empty());
    // A rollback pays nothing.
    machine.follow(&parts("0 A 9")[0]);
    assert_eq!((machine.paid, machine.clock), (22, 17));
    assert!(machine.stations[0].finished());
    // A job that isn't there only takes time.
    machine.follow(&parts("9 N 1")[0]);
    assert_eq!((machine.paid, machine.clock), (22, 18));
}

#[test]
fn the_machine_says_what_a_part_earns() {
    let mut at_ten = machine(&behind(10), &[]);
    assert_eq!(at_ten.follow(&parts("0 N 9")[0]), Some(0));
    assert_eq!(at_ten.follow(&parts("0 N 1")[0]), Some(0));
    assert_eq!(at_ten.follow(&parts("1 N 5")[0]), Some(22));
    // A job that is done earns nothing more.
    assert_eq!(at_ten.follow(&parts("1 N 5")[0]), Some(0));
    assert_eq!(at_ten.paid, 22);

    let mut too_late = machine(&behind(9), &[]);
    assert_eq!(too_late.follow(&parts("0 N 9")[0]), Some(0));
    assert_eq!(too_late.follow(&parts("0 N 1")[0]), None);
    assert_eq!(too_late.follow(&parts("0 A 9")[0]), Some(0));
    assert_eq!((too_late.paid, too_late.clock), (0, 19));
    assert!(too_late.stations[0].finished());
}

#[test]
fn the_machine_begins_with_the_victims_in_rollback() {
    let circle = book(1).job(job(6, 9).holds(0, 6, 1).requests(0, 6, 1));
    let machine = machine(&circle, &[0, 7]);
    assert!(machine.stations[0].in_rollback);
    assert!(machine.stations[0].request.is_none());
}

#[test]
fn the_machine_follows_any_list() {
    for seed in 0..2_000 {
        let Ok(book) = read(&make::valid(seed)) else {
            panic!("valid({seed}) was refused")
        };
        let mut dice = Dice::new(seed);
        let mut machine = Machine::begin(book.now, &book.jobs, &[dice.below(40)]);
        for _ in 0..100 {
            let part = Part {
                job: dice.below(33),
                rollback: dice.chance(50),
                time: dice.pick(&[0, 1, 2, 7, 30_000, 65_535]),
            };
            machine.follow(&part);
        }
        for station in &machine.stations {
            assert!(station.run_left >= 0 && station.rollback_left >= 0);
        }
    }
}

/// The stated end then no longer fits, whatever the part was worth.
#[test]
fn a_dropped_last_part_is_always_found() {
    let mut tried = 0;
    for seed in 0..3_000 {
        let bytes = make::valid(seed);
        let Ok(good) = plan(&bytes) else { continue };
        assert_eq!(check_demand3(&bytes, &good), Ok(()));
        let mut bad = good.clone();
        if bad.parts.pop().is_some() {
            assert!(check_demand3(&bytes, &bad).is_err(), "seed {seed}");
            tried += 1;
        }
    }
    assert!(tried > 1_000);
}
