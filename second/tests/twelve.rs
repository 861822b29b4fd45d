//! The twelve cases of 01. Where 01 leaves the end or the rounds unsaid, they
//! follow from the parts and are written here too.

mod common;
use common::twelve::case;
use common::{hex, stated, BookOf};
use second::refusal::KNOT;
use second::{answer, check_demand3, listing, plan, Plan, Refusal};

fn expect(book: &BookOf, expected: Plan) {
    let bytes = book.bytes();
    assert_eq!(plan(&bytes), Ok(expected.clone()));
    assert_eq!(check_demand3(&bytes, &expected), Ok(()));
}

#[test]
fn case_01_the_empty_book() {
    let empty = case(1);
    assert_eq!(empty.bytes().len(), 9);
    expect(&empty, stated(&[], "", 0, 0, 0));

    let mut out = [7u8; 430];
    assert_eq!(answer(&empty.bytes(), &mut out), Ok(14));
    assert_eq!(out[..14], hex("00 0E 01 00 00 00 00 00 00 00 00 00 00 00"));
    assert!(out[14..].iter().all(|&byte| byte == 7));
    assert_eq!(
        listing(&empty.bytes()),
        "victims 0\ntotal 0 end 0 rounds 0\n"
    );
}

#[test]
fn case_02_two_apart() {
    let two = case(2);
    expect(&two, stated(&[], "1 N 4, 0 N 10", 90, 14, 2));

    let mut out = [7u8; 430];
    assert_eq!(answer(&two.bytes(), &mut out), Ok(22));
    let bytes = "00 16 01 00 02 | 01 00 00 04 | 00 00 00 0A | 02 00 00 00 5A 00 00 00 0E";
    assert_eq!(out[..22], hex(bytes));
}

#[test]
fn case_03_ends_at_termination() {
    expect(&case(3), stated(&[], "0 N 10", 7, 10, 1));
}

#[test]
fn case_04_ends_after_termination() {
    expect(&case(4), stated(&[], "", 0, 0, 0));
}

#[test]
fn case_05_the_book_printed_in_01() {
    let printed = hex(
        "00 42 01 02 01 00 00 00 00 | 00 00 06 00 02 FF 00 00 00 00 01 00 00 06 00 02 01 \
         00 00 00 00 00 00 00 00 00 00 00 00 00 64 | 00 00 05 00 01 00 00 05 00 01 00 01 \
         00 00 00 00 00 00 00 16 00 00 00 00 00 64",
    );
    assert_eq!(case(5).bytes(), printed);
    expect(&case(5), stated(&[], "0 A 2, 1 N 5", 22, 7, 1));
    assert_eq!(
        listing(&printed),
        "victims 0\npart 0 A 2 at 0\npart 1 N 5 at 2\ntotal 22 end 7 rounds 1\n"
    );
}

#[test]
fn case_06_only_finished_work_is_credited() {
    // 02, R-3: job 0 does not finish at 6, so it is not credited 30 there, and
    // 22/6 is denser than 22/11.
    expect(&case(6), stated(&[], "0 A 1, 1 N 5", 22, 6, 1));
}

#[test]
fn case_07_normal_wins_a_tie() {
    expect(&case(7), stated(&[], "0 N 6, 1 N 5", 22, 11, 1));
}

#[test]
fn case_08_holds_stop_at_zero() {
    expect(&case(8), stated(&[], "0 N 8, 1 N 2", 10, 10, 1));
}

#[test]
fn case_09_the_victim_of_least_loss() {
    expect(&case(9), stated(&[1], "1 A 3, 0 N 10", 50, 13, 1));
    assert_eq!(
        listing(&case(9).bytes()),
        "victims 1 1\npart 1 A 3 at 0\npart 0 N 10 at 3\ntotal 50 end 13 rounds 1\n"
    );
}

#[test]
fn case_10_the_other_can_not_be_rolled_back() {
    expect(&case(10), stated(&[0], "0 A 3, 1 N 10", 20, 13, 1));
}

#[test]
fn case_11_a_knot() {
    let bytes = case(11).bytes();
    assert_eq!(plan(&bytes), Err(Refusal::new(KNOT, 0)));
    assert_eq!(listing(&bytes), "refused 10 at 0\n");
}

#[test]
fn case_12_a_freed_resource_goes_to_the_next() {
    expect(
        &case(12),
        stated(&[], "0 N 2, 1 N 3, 2 N 1, 1 N 6, 3 N 1", 70, 13, 2),
    );
}
