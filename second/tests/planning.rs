//! Rules of 01 that the twelve cases leave room in, worked out by hand.

mod common;
use common::{book, job, stated, BookOf, LAST_TIME, NEVER};
use second::book::{Curve, Piece};
use second::worth::worth;
use second::{answer, check_demand3, plan, Plan};

fn expect(book: &BookOf, expected: Plan) {
    let bytes = book.bytes();
    assert_eq!(plan(&bytes), Ok(expected.clone()));
    assert_eq!(check_demand3(&bytes, &expected), Ok(()));
}

#[test]
fn worth_of_a_curve() {
    let curve = Curve {
        pieces: vec![
            Piece {
                start: 10,
                value: 5,
                slope: 2,
            },
            Piece {
                start: 20,
                value: -7,
                slope: 0,
            },
            Piece {
                start: 21,
                value: 100,
                slope: -3,
            },
        ],
        termination: 30,
    };
    let expected = [
        (10, 5),
        (11, 7),
        (19, 23),
        (20, -7),
        (21, 100),
        (22, 97),
        (30, 73),
    ];
    for (t, value) in expected {
        assert_eq!(worth(&curve, t), Some(value), "at {t}");
    }
    for t in [0, 9, 31, 4_000_000_000] {
        assert_eq!(worth(&curve, t), None, "at {t}");
    }
}

#[test]
fn densities_are_compared_exactly() {
    // 22/7 and 22/6 both give 3 as whole quotients.
    let close = book(0).job(job(7, 22)).job(job(6, 22));
    expect(&close, stated(&[], "1 N 6, 0 N 7", 44, 13, 2));
}

#[test]
fn ties_go_to_the_lowest_last_job() {
    // 2/4 is 1/2.
    let tie = book(0).job(job(4, 2)).job(job(2, 1)).job(job(8, 4));
    expect(&tie, stated(&[], "0 N 4, 1 N 2, 2 N 8", 7, 14, 3));
}

#[test]
fn what_earns_nothing_is_not_planned() {
    expect(
        &book(0).job(job(4, 0)).job(job(4, -5)),
        stated(&[], "", 0, 0, 0),
    );
    expect(&book(0).job(job(4, 9).mode(1)), stated(&[], "", 0, 0, 0));
    // Job 0 loses 5 by finishing, which job 1 makes up for.
    let worth_it = book(1)
        .job(job(4, -5).never().holds(0, 4, NEVER))
        .job(job(1, 6).requests(0, 1, 1));
    expect(&worth_it, stated(&[], "0 N 4, 1 N 1", 1, 5, 1));
    let not_worth_it = book(1)
        .job(job(4, -5).never().holds(0, 4, NEVER))
        .job(job(1, 5).requests(0, 1, 1));
    expect(&not_worth_it, stated(&[], "", 0, 0, 0));
}

#[test]
fn worth_is_taken_at_the_planned_moment() {
    // From 100 ms on each job is worth 1 less for each ms it comes later.
    let falling = book(0)
        .now(100)
        .job(job(10, 0).curve(&[(100, 50, -1)], 150))
        .job(job(5, 0).curve(&[(100, 50, -1)], 150));
    expect(&falling, stated(&[], "1 N 5, 0 N 10", 45 + 35, 115, 2));
}

#[test]
fn the_choice_starts_from_the_group_so_far() {
    // For job 1 from nothing: 9/5 normally, 6/3 in rollback. After the 10 ms
    // of job 0: 9/15 and 6/13, so it runs normally.
    let after_time = book(2)
        .job(job(10, 0).never().holds(0, 10, NEVER))
        .job(job(4, 3).rollback(2).holds(1, 4, 2).requests(0, 1, 1))
        .job(job(1, 6).requests(1, 1, 1));
    expect(&after_time, stated(&[], "0 N 10, 1 N 4, 2 N 1", 9, 15, 1));

    // After the 10 ms and the utility 10 of job 0: 80/15 and 70/13, so it
    // rolls back. Without the utility it would be 70/15 and 60/13.
    let after_utility = book(2)
        .job(job(10, 10).never().holds(0, 10, NEVER))
        .job(job(4, 10).rollback(2).holds(1, 4, 2).requests(0, 1, 1))
        .job(job(1, 60).requests(1, 1, 1));
    expect(
        &after_utility,
        stated(&[], "0 N 10, 1 A 2, 2 N 1", 70, 13, 1),
    );
}

#[test]
fn a_run_that_only_frees_a_resource_is_not_credited() {
    // 02, R-3. For job 0, which would finish: 60/10 normally, 30/6 in rollback,
    // since job 1 would not finish by its hold of 4. Were job 1 credited all the
    // same, it would be 90/10 and 60/6.
    let three = |hold: u32| {
        book(2)
            .job(job(5, 30).rollback(1).holds(0, 5, 1))
            .job(job(5, 30).rollback(1).holds(1, hold, 1).requests(0, 5, 1))
            .job(job(1, 30).requests(1, 1, 1))
    };
    expect(&three(4), stated(&[], "0 N 5, 1 A 1, 2 N 1", 60, 7, 1));
    // By a hold of 5 it would: 90/11 and 60/7; then for job 1, after the 1 ms of
    // job 0's rollback, 60/7 and 30/3.
    expect(&three(5), stated(&[], "0 A 1, 1 A 1, 2 N 1", 30, 3, 1));
}

#[test]
fn a_grant_adds_to_the_rollback_times() {
    let granted = |rollback: u32| {
        book(3)
            .job(
                job(11, 0)
                    .rollback(3)
                    .holds(0, 2, 2)
                    .holds(1, 10, 3)
                    .requests(2, 1, rollback),
            )
            .job(job(1, 100).requests(0, 1, 1))
            .job(job(1, 8).requests(1, 1, 1))
    };
    // Job 0 first frees r0 in 2 ms either way, a tie. The grant takes its
    // rollback of r1 from 3 to 7, still under its 8 ms of hold left.
    expect(
        &granted(4),
        stated(&[], "0 N 2, 1 N 1, 0 A 7, 2 N 1", 108, 11, 2),
    );
    // From 3 to 8: a tie.
    expect(
        &granted(5),
        stated(&[], "0 N 2, 1 N 1, 0 N 8, 2 N 1", 108, 12, 2),
    );
    // "If either is never, all are never."
    expect(
        &granted(NEVER),
        stated(&[], "0 N 2, 1 N 1, 0 N 8, 2 N 1", 108, 12, 2),
    );
}

#[test]
fn the_largest_rollback_a_grant_can_make() {
    // 30,000 + 30,000 stays under the never mark.
    let granted = book(3)
        .job(
            job(60_000, 0)
                .rollback(30_000)
                .holds(0, 1, 30_000)
                .holds(1, 60_000, 30_000)
                .requests(2, 60_000, 30_000)
                .terminates(LAST_TIME),
        )
        .job(job(1, 1_000_000).requests(0, 1, 1).terminates(LAST_TIME))
        .job(job(1, 10).requests(1, 1, 1).terminates(LAST_TIME));
    // After 1 ms job 0 has 59,999 ms to run and 60,000 to roll back.
    let expected = stated(&[], "0 N 1, 1 N 1, 0 N 59999, 2 N 1", 1_000_010, 60_002, 2);
    expect(&granted, expected);
}

#[test]
fn a_rollback_may_come_in_several_parts() {
    let split = book(2)
        .job(job(5, 0).mode(1).rollback(9).holds(0, 5, 4).holds(1, 5, 9))
        .job(job(1, 50).requests(0, 1, 1))
        .job(job(1, 10).requests(1, 1, 1));
    expect(&split, stated(&[], "0 A 4, 1 N 1, 0 A 5, 2 N 1", 60, 11, 2));
}

#[test]
fn a_job_in_rollback_waits_for_no_one() {
    // Job 0 rolls back for job 1 and drops its request for r2, which job 2
    // then takes. For job 4 job 0 rolls back further without job 2.
    let turned = book(4)
        .job(
            job(20, 0)
                .rollback(9)
                .holds(0, 20, 2)
                .holds(1, 20, 9)
                .requests(2, 1, 1),
        )
        .job(job(1, 100).requests(0, 1, 1))
        .job(job(10, 0).never().holds(3, 1, NEVER).requests(2, 10, NEVER))
        .job(job(1, 50).requests(3, 1, 1))
        .job(job(1, 8).requests(1, 1, 1));
    let parts = "0 A 2, 1 N 1, 2 N 1, 3 N 1, 0 A 7, 4 N 1";
    expect(&turned, stated(&[], parts, 158, 13, 3));
}

#[test]
fn a_job_begun_normally_may_roll_back_later() {
    // First 20/2 by running 1 ms, a tie with rolling back; then 4 ms of hold
    // against 1 of rollback.
    let turned = book(2)
        .job(job(9, 0).rollback(1).holds(0, 1, 1).holds(1, 5, 1))
        .job(job(1, 20).requests(0, 1, 1))
        .job(job(1, 10).requests(1, 1, 1));
    expect(&turned, stated(&[], "0 N 1, 1 N 1, 0 A 1, 2 N 1", 30, 4, 2));
}

#[test]
fn a_waiting_job_may_roll_back_in_the_middle_of_its_chain() {
    // VI.3 frees r0 first even though job 1 then drops its request for it.
    let middle = book(2)
        .job(job(3, 0).never().holds(0, 3, NEVER))
        .job(job(50, 0).holds(1, 50, 1).requests(0, 1, 1))
        .job(job(1, 40).requests(1, 1, 1));
    expect(&middle, stated(&[], "0 N 3, 1 A 1, 2 N 1", 40, 5, 1));
}

#[test]
fn victims_by_exact_least_loss() {
    let ring = |first: (u32, i32), second: (u32, i32)| {
        book(2)
            .job(job(first.0, first.1).holds(0, 1, 1).requests(1, 1, 1))
            .job(job(second.0, second.1).holds(1, 1, 1).requests(0, 1, 1))
    };
    let victims = |book: BookOf| plan(&book.bytes()).unwrap().victims;
    assert_eq!(victims(ring((6, 22), (7, 22))), [1]);
    assert_eq!(victims(ring((7, 22), (6, 22))), [0]);
    // A tie: 2/4 is 1/2.
    assert_eq!(victims(ring((4, 2), (2, 1))), [0]);
    assert_eq!(victims(ring((2, 1), (4, 2))), [0]);
    // Below zero is the least.
    assert_eq!(victims(ring((4, 0), (2, -1))), [1]);
    assert_eq!(victims(ring((9, -1), (2, -1))), [1]);
    // The worth is that at now + run time left: past termination there is none,
    // which counts as 0.
    assert_eq!(victims(ring((4, 1), (1_001, 1_000_000))), [1]);
}

#[test]
fn victims_are_listed_by_the_lowest_member_of_their_circle() {
    // Circles: 0 with 3 (victim 3), 1 with 2 (victim 1), 4 alone. Job 5 waits
    // behind and is on none.
    let three = book(6)
        .job(job(2, 9).holds(0, 2, 1).requests(3, 1, 1))
        .job(job(2, 1).holds(1, 2, 1).requests(2, 1, 1))
        .job(job(2, 9).holds(2, 2, 1).requests(1, 1, 1))
        .job(job(2, 1).holds(3, 2, 1).requests(0, 1, 1))
        .job(job(2, 9).holds(4, 2, 1).requests(4, 1, 1))
        .job(job(2, -9).holds(5, 2, 1).requests(4, 1, 1));
    let plan = plan(&three.bytes()).unwrap();
    assert_eq!(plan.victims, [3, 1, 4]);
    assert_eq!(check_demand3(&three.bytes(), &plan), Ok(()));
}

#[test]
fn the_longest_list_of_victims() {
    let mut alone = book(32);
    for number in 0..32 {
        alone = alone.job(job(2, 9).holds(number, 2, 1).requests(number, 1, 1));
    }
    let plan = plan(&alone.bytes()).unwrap();
    assert_eq!(plan.victims, (0..32).collect::<Vec<usize>>());
    assert!(plan.parts.is_empty());
    let mut out = [7; 430];
    assert_eq!(answer(&alone.bytes(), &mut out), Ok(46));
}

#[test]
fn a_plan_may_end_at_the_last_book_time_and_not_past_it() {
    // 16 ms before that time. For job 2 alone job 0 runs (40/3 against 90/7), and
    // so does job 1 (40/3 against 0/12). Before R-7 of 02 job 3's group was denser:
    // job 2 then earns at the last moment, and job 3 runs on past it for nothing.
    // Now it is no candidate.
    let now = LAST_TIME - 16;
    let late = |last: u32| {
        book(3)
            .now(now)
            .job(job(20, 0).rollback(5).holds(0, 1, 5).terminates(LAST_TIME))
            .job(
                job(20, 0)
                    .rollback(10)
                    .holds(1, 1, 10)
                    .requests(0, 1, 1)
                    .terminates(LAST_TIME),
            )
            .job(job(1, 0).holds(2, 1, 1).requests(1, 1, 1).curve(
                &[
                    (now, 40, 0),
                    (now + 4, 90, 0),
                    (now + 8, 0, 0),
                    (now + 16, 5_000, 0),
                ],
                LAST_TIME,
            ))
            .job(job(last, 1).requests(2, 1, 1).terminates(LAST_TIME))
    };
    let parts = "0 N 1, 1 N 1, 2 N 1";
    expect(&late(20), stated(&[], parts, 40, i64::from(now) + 3, 1));
    // With 13 ms job 3 ends at the last time, after job 2 in 3; with 14 past it.
    let parts = "0 N 1, 1 N 1, 2 N 1, 3 N 13";
    expect(&late(13), stated(&[], parts, 41, i64::from(LAST_TIME), 2));
    expect(
        &late(14),
        stated(&[], "0 N 1, 1 N 1, 2 N 1", 40, i64::from(now) + 3, 1),
    );
    let mut out = [7; 430];
    assert_eq!(answer(&late(13).bytes(), &mut out), Ok(30));
    assert_eq!(out[26..30], [0x7F, 0xFF, 0xFF, 0xFF]);
}

#[test]
fn a_total_is_never_below_zero_and_may_be_large() {
    let mut full = book(0);
    for _ in 0..32 {
        full = full.job(job(60_000, 1_000_000).terminates(LAST_TIME));
    }
    let plan = plan(&full.bytes()).unwrap();
    assert_eq!(
        (plan.total, plan.end, plan.rounds),
        (32_000_000, 1_920_000, 32)
    );
}

#[test]
fn a_chain_of_all_jobs() {
    // Only job 31 is worth something, and no one can be rolled back: each
    // runs its 1 ms of hold, then none of the rest earns.
    let mut long = book(31).job(job(5, 0).never().holds(0, 1, NEVER));
    for number in 1..31u8 {
        let one = job(5, 0)
            .never()
            .holds(number, 1, NEVER)
            .requests(number - 1, 5, NEVER);
        long = long.job(one);
    }
    long = long.job(job(1, 1_000).never().requests(30, 1, NEVER));
    let plan = plan(&long.bytes()).unwrap();
    assert_eq!(
        (plan.parts.len(), plan.rounds, plan.total, plan.end),
        (32, 1, 1_000, 32)
    );
    assert_eq!(check_demand3(&long.bytes(), &plan), Ok(()));
}

#[test]
fn the_most_parts() {
    // As above, but each job is worth 1 at its end: 32 parts in the first
    // round and one more for each of the other 31 jobs.
    let mut long = book(31).job(job(5, 1).never().holds(0, 1, NEVER));
    for number in 1..31u8 {
        let one = job(5, 1)
            .never()
            .holds(number, 1, NEVER)
            .requests(number - 1, 5, NEVER);
        long = long.job(one);
    }
    long = long.job(job(1, 1_000).never().requests(30, 1, NEVER));
    let plan = plan(&long.bytes()).unwrap();
    assert_eq!((plan.parts.len(), plan.rounds, plan.total), (63, 32, 1_031));
    assert_eq!(plan.end, 32 + 31 * 4);
    assert_eq!(check_demand3(&long.bytes(), &plan), Ok(()));
}
