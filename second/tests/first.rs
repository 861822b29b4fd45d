//! The question of the first part: 01's twelve, and rules that they leave room
//! in, worked out by hand.

mod common;
use common::twelve::case;
use common::{book, job, parts, BookOf, LAST_TIME};
use second::make::{damaged, noise, valid};
use second::refusal::KNOT;
use second::{first, first_listing, plan, Refusal};

/// What is answered, in 01's words for a part, and the text with its start.
fn expect(book: &BookOf, part: &str, start: u32) {
    let bytes = book.bytes();
    assert_eq!(first(&bytes), Ok(parts(part).pop()), "{bytes:02X?}");
    assert_eq!(first_listing(&bytes), format!("part {part} at {start}\n"));
}

fn expect_nothing(book: &BookOf) {
    let bytes = book.bytes();
    assert_eq!(first(&bytes), Ok(None), "{bytes:02X?}");
    assert_eq!(first_listing(&bytes), "nothing\n");
}

#[test]
fn the_twelve() {
    expect_nothing(&case(1));
    expect(&case(2), "1 N 4", 0);
    expect(&case(3), "0 N 10", 0);
    expect_nothing(&case(4));
    expect(&case(5), "0 A 2", 0);
    expect(&case(6), "0 A 1", 0);
    expect(&case(7), "0 N 6", 0);
    expect(&case(8), "0 N 8", 0);
    expect(&case(9), "1 A 3", 0);
    expect(&case(10), "0 A 3", 0);
    let knot = case(11).bytes();
    assert_eq!(first(&knot), Err(Refusal::new(KNOT, 0)));
    assert_eq!(first_listing(&knot), "refused 10 at 0\n");
    expect(&case(12), "0 N 2", 0);
}

#[test]
fn the_start_is_now() {
    let late = job(60_000, 1).curve(&[(LAST_TIME, 9, 0)], LAST_TIME);
    expect(
        &book(0).now(LAST_TIME - 60_000).job(late),
        "0 N 60000",
        LAST_TIME - 60_000,
    );
}

#[test]
fn a_group_that_is_not_above_zero_is_no_answer() {
    expect_nothing(&book(0).job(job(4, 0)));
    expect_nothing(&book(0).job(job(4, -1)).job(job(1, -9)));
    expect(&book(0).job(job(4, 0)).job(job(1, 1)), "1 N 1", 0);
}

#[test]
fn it_is_the_plans_first_part() {
    let mut met = (0, 0, 0);
    for seed in 0..3_000 {
        for bytes in [valid(seed), damaged(seed), noise(seed)] {
            let of_plan = plan(&bytes).map(|plan| plan.parts.first().cloned());
            assert_eq!(first(&bytes), of_plan, "{bytes:02X?}");
            match of_plan {
                Ok(Some(_)) => met.0 += 1,
                Ok(None) => met.1 += 1,
                Err(_) => met.2 += 1,
            }
        }
    }
    let (some, none, refused) = met;
    assert!(some > 1_000 && none > 50 && refused > 1_000, "{met:?}");
}
