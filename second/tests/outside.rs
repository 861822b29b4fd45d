//! R-7 of 02: outside the curve is not zero. The cases that its plan names A, A',
//! B and D, and what they leave room in, worked out by hand.

mod common;
use common::twelve::case;
use common::{book, job, parts, stated, BookOf, JobOf, LAST_TIME, NEVER};
use second::book::read;
use second::make::{damaged, valid};
use second::rounds::{group, Gain, Group};
use second::{check_demand3, plan, Plan};

fn expect(book: &BookOf, expected: Plan) {
    let bytes = book.bytes();
    assert_eq!(plan(&bytes), Ok(expected.clone()));
    assert_eq!(check_demand3(&bytes, &expected), Ok(()));
}

fn expect_no_part(book: &BookOf) {
    expect(book, stated(&[], "", 0, 0, 0));
}

/// The group of a job in the first round of a book without circles.
fn first_group(book: &BookOf, last: usize) -> Group {
    let book = read(&book.bytes()).unwrap();
    group(&book.jobs, book.now, last).unwrap()
}

fn expect_group(book: &BookOf, last: usize, text: &str, utility: Option<i64>) {
    let parts = parts(text);
    let time = parts.iter().map(|part| part.time).sum();
    let gain = Gain { time, utility };
    assert_eq!(first_group(book, last), Group { parts, gain });
}

/// Job 1, 5/22, waits for all that job 0 has to run.
fn behind(holder: JobOf) -> BookOf {
    book(1).job(holder).job(job(5, 22).requests(0, 5, 1))
}

/// 10/5, which can't be rolled back.
fn stuck() -> JobOf {
    job(10, 5).never().holds(0, 10, NEVER)
}

/// 10/5, which takes as long to roll back as is said.
fn loose(rollback: u32) -> JobOf {
    job(10, 5).rollback(rollback).holds(0, 10, rollback)
}

#[test]
fn case_a_a_late_job_before_the_last_spoils_the_group() {
    expect_no_part(&behind(stuck().terminates(8)));
    // The last one's own finish is inside its curve.
    expect_group(&behind(stuck().terminates(8)), 1, "0 N 10, 1 N 5", None);
}

#[test]
fn case_a_with_a_job_that_would_finish_too_early() {
    expect_no_part(&behind(stuck().curve(&[(11, 5, 0)], 1_000)));
    let at_start = behind(stuck().curve(&[(10, 5, 0)], 1_000));
    expect(&at_start, stated(&[], "0 N 10, 1 N 5", 27, 15, 1));
}

#[test]
fn case_b_only_the_normal_course_has_none() {
    // By density alone it would be 22/15 normally and 22/17 in rollback.
    let late = behind(loose(12).terminates(8));
    expect(&late, stated(&[], "0 A 12, 1 N 5", 22, 17, 1));
    // A loss is better than none, but such a group is not appended.
    let losing = book(1)
        .job(loose(12).terminates(8))
        .job(job(5, -22).requests(0, 5, 1));
    expect_group(&losing, 1, "0 A 12, 1 N 5", Some(-22));
    expect_no_part(&losing);
}

#[test]
fn case_d_both_courses_have_none() {
    // For job 0 job 1 is reckoned as normal, and would finish too late either way.
    // When its own turn comes it rolls back.
    let three = |termination: u32| {
        let late = job(4, 5).rollback(2).holds(1, 4, 2).requests(0, 4, 1);
        book(2)
            .job(job(20, 0).holds(0, 6, 1))
            .job(late.terminates(termination))
            .job(job(3, 30).requests(1, 3, 1))
    };
    let expected = stated(&[], "0 N 6, 1 A 2, 2 N 3", 30, 11, 1);
    expect(&three(2), expected.clone());
    // Job 1 finishes at 5 at the earliest. If its curve reaches that, the rollback
    // course alone has no none; job 1 itself then has 35/8 against 30/6.
    expect(&three(4), expected);
    expect(&three(5), stated(&[], "0 A 1, 1 A 2, 2 N 3", 30, 6, 1));
}

#[test]
fn only_the_rollback_course_has_none() {
    // Job 1 is worth 10 at 10 and 100 from 11 on; job 2 would finish at 13 or 14.
    // By density alone it would be 15/13 against 100/14 or 105/14.
    let three = |termination: u32| {
        let rising = job(4, 0)
            .never()
            .holds(1, 4, NEVER)
            .requests(0, 4, NEVER)
            .curve(&[(0, 10, 0), (11, 100, 0)], 1_000);
        book(2)
            .job(job(20, 0).rollback(7).holds(0, 6, 7))
            .job(rising)
            .job(job(3, 5).requests(1, 3, 1).terminates(termination))
    };
    expect_group(&three(13), 2, "0 N 6, 1 N 4, 2 N 3", Some(15));
    expect_group(&three(14), 2, "0 A 7, 1 N 4, 2 N 3", Some(105));
    // With none in both it is normal again.
    expect_group(&three(12), 2, "0 N 6, 1 N 4, 2 N 3", None);
}

#[test]
fn only_the_rollback_course_has_none_in_a_group_that_is_planned() {
    // Job 1 loses 1,000 at 10 and nothing from 11 on. For job 0 by density alone:
    // -970/13 normally, 0/14 or 30/14 in rollback. Job 1 then rolls back itself.
    let three = |termination: u32| {
        let rising = job(4, 0)
            .holds(1, 4, 1)
            .requests(0, 4, 1)
            .curve(&[(0, -1_000, 0), (11, 0, 0)], 1_000);
        book(2)
            .job(job(20, 0).rollback(7).holds(0, 6, 7))
            .job(rising)
            .job(job(3, 30).requests(1, 3, 1).terminates(termination))
    };
    expect(&three(13), stated(&[], "0 N 6, 1 A 1, 2 N 3", 30, 10, 1));
    expect(&three(14), stated(&[], "0 A 7, 1 A 1, 2 N 3", 30, 11, 1));
}

#[test]
fn none_in_the_group_so_far_counts_for_both_courses() {
    // After the 10 ms and the utility 5 of job 0: 70/18 normally, 65/14 in rollback.
    let three = |termination: u32| {
        book(2)
            .job(stuck().terminates(termination))
            .job(job(5, 5).rollback(1).holds(1, 5, 1).requests(0, 5, 1))
            .job(job(3, 60).requests(1, 3, 1))
    };
    expect_group(&three(10), 2, "0 N 10, 1 A 1, 2 N 3", Some(65));
    expect_group(&three(9), 2, "0 N 10, 1 N 5, 2 N 3", None);
}

#[test]
fn the_four_moments_of_a_finish_before_the_last() {
    for (termination, planned) in [(9, false), (10, true), (11, true)] {
        let book = behind(stuck().terminates(termination));
        match planned {
            true => expect(&book, stated(&[], "0 N 10, 1 N 5", 27, 15, 1)),
            false => expect_no_part(&book),
        }
    }
    for (start, planned) in [(9, true), (10, true), (11, false)] {
        let book = behind(stuck().curve(&[(start, 5, 0)], 1_000));
        match planned {
            true => expect(&book, stated(&[], "0 N 10, 1 N 5", 27, 15, 1)),
            false => expect_no_part(&book),
        }
    }
}

#[test]
fn the_four_moments_of_a_last_finish() {
    // Cases 3 and 4 of 01.
    expect(&case(3), stated(&[], "0 N 10", 7, 10, 1));
    expect_no_part(&case(4));
    expect_group(&case(4), 0, "0 N 10", None);
    let from = |start: u32| book(0).job(job(10, 0).curve(&[(start, 7, 0)], 10));
    expect(&from(9), stated(&[], "0 N 10", 7, 10, 1));
    expect(&from(10), stated(&[], "0 N 10", 7, 10, 1));
    let early = book(0).job(job(10, 0).curve(&[(11, 7, 0)], 11));
    expect_no_part(&early);
    expect_group(&early, 0, "0 N 10", None);
}

#[test]
fn the_four_moments_in_the_choice_of_a_mode() {
    // 27/15 normally against 22/17, unless the normal finish has none.
    let normal = stated(&[], "0 N 10, 1 N 5", 27, 15, 1);
    let back = stated(&[], "0 A 12, 1 N 5", 22, 17, 1);
    expect(&behind(loose(12).terminates(10)), normal.clone());
    expect(&behind(loose(12).terminates(9)), back.clone());
    let from = |start: u32| behind(loose(12).curve(&[(start, 5, 0)], 1_000));
    expect(&from(10), normal);
    expect(&from(11), back);
}

#[test]
fn a_run_that_only_frees_a_resource_finishes_nothing() {
    let over = |hold: u32| behind(job(10, 5).never().holds(0, hold, NEVER).terminates(0));
    expect(&over(9), stated(&[], "0 N 9, 1 N 5", 22, 14, 1));
    expect_no_part(&over(10));
}

#[test]
fn a_rollback_is_never_outside() {
    // It would end at 12 or 3, when the curve is long over.
    let over = |rollback: u32| behind(loose(rollback).mode(1).terminates(0));
    expect(&over(12), stated(&[], "0 A 12, 1 N 5", 22, 17, 1));
    expect(&over(3), stated(&[], "0 A 3, 1 N 5", 22, 8, 1));
    // Nor is the last of a group.
    let alone = book(0).job(job(10, 5).mode(1).terminates(0));
    expect_group(&alone, 0, "0 A 1", Some(0));
    expect_no_part(&alone);
}

#[test]
fn what_is_no_candidate_is_passed_over() {
    // Job 1's group is no candidate, though job 1 alone makes it the denser one.
    let beside = behind(stuck().terminates(8)).job(job(5, 1));
    expect(&beside, stated(&[], "2 N 5", 1, 5, 1));
    // A worth of zero is a candidate's, but not above zero.
    expect_no_part(&behind(stuck().terminates(8)).job(job(5, 0)));
    expect_no_part(&behind(stuck().terminates(8)).job(job(5, -1)));
}

#[test]
fn a_job_comes_to_be_too_late() {
    // At 14, after job 1.
    let two = |termination: u32| {
        book(0)
            .job(job(10, 50).terminates(termination))
            .job(job(4, 40))
    };
    expect(&two(14), stated(&[], "1 N 4, 0 N 10", 90, 14, 2));
    expect(&two(13), stated(&[], "1 N 4", 40, 4, 1));
}

#[test]
fn a_job_comes_to_be_no_longer_too_early() {
    let early = |start: u32| {
        book(0)
            .job(job(5, 0).curve(&[(start, 50, 0)], 1_000))
            .job(job(1, 1))
    };
    expect(&early(5), stated(&[], "0 N 5, 1 N 1", 51, 6, 2));
    expect(&early(6), stated(&[], "1 N 1, 0 N 5", 51, 6, 2));
    // No one waits for a start.
    expect(&early(7), stated(&[], "1 N 1", 1, 1, 1));
}

#[test]
fn a_loss_below_zero_and_none_are_not_the_same() {
    // Behind job 0, which loses 5 by finishing, job 1 still gains; behind one that
    // would finish outside its curve it does not.
    expect(
        &behind(job(10, -5).never().holds(0, 10, NEVER)),
        stated(&[], "0 N 10, 1 N 5", 17, 15, 1),
    );
    expect_no_part(&behind(
        job(10, -5).never().holds(0, 10, NEVER).terminates(9),
    ));
}

#[test]
fn for_a_victims_loss_none_counts_as_zero() {
    let ring = |first: JobOf, second: JobOf| {
        let first = first.holds(0, 1, 1).requests(1, 1, 1);
        let second = second.holds(1, 1, 1).requests(0, 1, 1);
        plan(&book(2).job(first).job(second).bytes())
            .unwrap()
            .victims
    };
    let late = || job(4, 100).terminates(3);
    let early = || job(4, 100).curve(&[(5, 100, 0)], 9);
    for outside in [late, early] {
        assert_eq!(ring(job(4, 1), outside()), [1]);
        assert_eq!(ring(outside(), job(4, -1)), [1]);
        // Ties go to the lowest number.
        assert_eq!(ring(job(4, 0), outside()), [0]);
        assert_eq!(ring(outside(), job(4, 0)), [0]);
    }
}

/// The last job of a group that is appended finishes inside its curve, and no
/// curve goes on past the last time that a book can name.
#[test]
fn no_plan_ends_past_the_last_book_time() {
    let mut at_the_last_time = 0;
    for seed in 0..20_000 {
        for bytes in [valid(seed), damaged(seed)] {
            let Ok(plan) = plan(&bytes) else { continue };
            assert!(plan.end <= i64::from(LAST_TIME), "seed {seed}");
            let ends_there = plan.rounds > 0 && plan.end == i64::from(LAST_TIME);
            at_the_last_time += usize::from(ends_there);
        }
    }
    assert!(at_the_last_time > 0);
}
