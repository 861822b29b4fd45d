//! The worth of one curve's bytes. Of such bytes the piece count stands at 0; of
//! the first piece the start at 1, the value at 5, the slope at 9; each piece
//! takes 10 bytes, and the termination stands after the last.

mod common;
use common::{book, curve, hex, job, LAST_TIME};
use second::refusal::*;
use second::{curve_worth, record};

/// Whatever the moment is.
fn refused(bytes: &[u8], number: u8, place: usize) {
    for t in [0, 5, LAST_TIME, u32::MAX] {
        let expected = Err(Refusal { number, place });
        assert_eq!(curve_worth(bytes, t), expected, "{bytes:02X?} at {t}");
    }
}

fn accepted(bytes: &[u8]) {
    assert!(curve_worth(bytes, 0).is_ok(), "{bytes:02X?}");
}

fn worths(bytes: &[u8], expected: &[(u32, i64)]) {
    for &(t, worth) in expected {
        assert_eq!(curve_worth(bytes, t), Ok(Some(worth)), "at {t}");
    }
}

/// 02, R-7: before the first start and after the termination.
fn none_at(bytes: &[u8], moments: &[u32]) {
    for &t in moments {
        assert_eq!(curve_worth(bytes, t), Ok(None), "at {t}");
    }
}

/// Rises, falls below zero, and is flat.
fn three() -> Vec<u8> {
    curve(&[(10, 5, 2), (20, -7, -1), (25, 100, 0)], 30)
}

#[test]
fn bytes_written_by_hand() {
    let bytes = hex("01 | 00 00 00 0A FF FF FF FE 00 03 | 00 00 00 0C");
    worths(&bytes, &[(10, -2), (11, 1), (12, 4)]);
    none_at(&bytes, &[9, 13]);
}

#[test]
fn before_in_and_after_the_pieces() {
    let inside = [(10, 5), (11, 7), (19, 23), (20, -7), (24, -11), (25, 100)];
    worths(&three(), &inside);
    worths(&three(), &[(29, 100), (30, 100)]);
    none_at(&three(), &[0, 9]);
    none_at(&three(), &[31, LAST_TIME, LAST_TIME + 1, u32::MAX]);
}

#[test]
fn a_curve_of_one_moment() {
    let first = curve(&[(0, -9, 5)], 0);
    worths(&first, &[(0, -9)]);
    none_at(&first, &[1]);
    let last = curve(&[(LAST_TIME, 9, 5)], LAST_TIME);
    worths(&last, &[(LAST_TIME, 9)]);
    none_at(&last, &[LAST_TIME - 1, LAST_TIME + 1]);
}

#[test]
fn the_greatest_and_the_least_worth() {
    let high = curve(&[(0, -1_000_000, 1_000)], 2_000);
    worths(&high, &[(0, -1_000_000), (1_000, 0), (2_000, 1_000_000)]);
    let low = curve(&[(7, 1_000_000, -1_000)], 2_007);
    worths(&low, &[(7, 1_000_000), (2_006, -999_000)]);
    worths(&low, &[(2_007, -1_000_000)]);
    none_at(&low, &[6, 2_008]);
}

#[test]
fn a_worth_of_zero_is_not_none() {
    let flat = curve(&[(10, 0, 0)], 20);
    worths(&flat, &[(10, 0), (15, 0), (20, 0)]);
    none_at(&flat, &[9, 21]);
}

#[test]
fn eight_pieces_each_in_its_place() {
    let pieces: Vec<(u32, i32, i16)> = (0..8).map(|at| (3 * at, at as i32 - 4, 1)).collect();
    let bytes = curve(&pieces, 23);
    for t in 0..24 {
        let expected = i64::from(t / 3) - 4 + i64::from(t % 3);
        assert_eq!(curve_worth(&bytes, t), Ok(Some(expected)), "at {t}");
    }
    none_at(&bytes, &[24]);
}

#[test]
fn a_curve_where_it_stands_in_a_book() {
    let pieces = [(3, -5, 0), (8, 60, -2)];
    let bytes = book(1)
        .job(job(9, 1))
        .job(job(9, 1).holds(0, 9, 1).curve(&pieces, 12))
        .job(job(9, 1))
        .bytes();
    let record = record(&bytes, 1).unwrap().unwrap();
    // Its curve stands after 11 bytes and one hold of 5.
    let part = &bytes[record.start + 16..record.end];
    assert_eq!(part, curve(&pieces, 12));
    worths(part, &[(3, -5), (7, -5), (8, 60), (12, 52)]);
    none_at(part, &[2, 13]);
    let rest = &bytes[record.start + 16..];
    refused(rest, TAIL, part.len());
}

#[test]
fn cut_at_the_field_that_runs_past_the_end() {
    refused(&[], CUT, 0);
    let bytes = three();
    assert_eq!(bytes.len(), 35);
    // Where each field begins, and where the one after it does.
    let fields = [1, 5, 9, 11, 15, 19, 21, 25, 29, 31, 35];
    for pair in fields.windows(2) {
        for length in pair[0]..pair[1] {
            refused(&bytes[..length], CUT, pair[0]);
        }
    }
    accepted(&bytes);
    // A count alone, of pieces that are not there.
    refused(&[8], CUT, 1);
}

#[test]
fn the_piece_count() {
    for count in [0, 9, 10, 128, 255] {
        let mut bytes = three();
        bytes[0] = count;
        refused(&bytes, RANGE, 0);
        refused(&[count], RANGE, 0);
    }
}

#[test]
fn starts() {
    refused(&curve(&[(LAST_TIME + 1, 0, 0)], LAST_TIME), RANGE, 1);
    refused(&curve(&[(u32::MAX, 0, 0)], LAST_TIME), RANGE, 1);
    refused(&curve(&[(5, 0, 0), (5, 0, 0)], 9), RANGE, 11);
    refused(&curve(&[(5, 0, 0), (4, 0, 0)], 9), RANGE, 11);
    refused(&curve(&[(5, 0, 0), (6, 0, 0), (6, 0, 0)], 9), RANGE, 21);
    refused(&curve(&[(5, 0, 0), (LAST_TIME + 1, 0, 0)], 9), RANGE, 11);
    accepted(&curve(&[(5, 0, 0), (6, 0, 0)], 6));
}

#[test]
fn values_and_slopes() {
    for value in [-1_000_001, 1_000_001, i32::MIN, i32::MAX] {
        refused(&curve(&[(0, value, 0)], 9), RANGE, 5);
        refused(&curve(&[(0, 0, 0), (1, value, 0)], 9), RANGE, 15);
    }
    for slope in [-1_001, 1_001, i16::MIN, i16::MAX] {
        refused(&curve(&[(0, 0, slope)], 9), RANGE, 9);
        refused(&curve(&[(0, 0, 0), (1, 0, slope)], 9), RANGE, 19);
    }
    accepted(&curve(&[(0, 1_000_000, -1_000)], 9));
    accepted(&curve(&[(0, -1_000_000, 1_000)], 9));
}

#[test]
fn an_end_value_judged_at_the_next_start() {
    // From 999,000 at slope 100 the piece reaches 1,000,000 at 10.
    accepted(&curve(&[(0, 999_000, 100), (11, 0, 0)], 20));
    refused(&curve(&[(0, 999_000, 100), (12, 0, 0)], 20), RANGE, 11);
    refused(&curve(&[(0, -999_000, -100), (12, 0, 0)], 20), RANGE, 11);
    // Before that piece's own value, and before what comes later.
    refused(
        &curve(&[(0, 999_000, 100), (12, 2_000_000, 0)], 0),
        RANGE,
        11,
    );
    // The widest product there is.
    let steep = [(0, 0, 1_000), (LAST_TIME, 0, 0)];
    refused(&curve(&steep, LAST_TIME), RANGE, 11);
}

#[test]
fn termination() {
    refused(&curve(&[(5, 0, 0)], 4), RANGE, 11);
    accepted(&curve(&[(5, 0, 0)], 5));
    refused(&curve(&[(5, 0, 0)], LAST_TIME + 1), RANGE, 11);
    refused(&curve(&[(5, 0, 0)], u32::MAX), RANGE, 11);
    accepted(&curve(&[(5, 0, 0)], LAST_TIME));
    // The last piece must be in range at termination itself.
    accepted(&curve(&[(0, 999_000, 100)], 10));
    refused(&curve(&[(0, 999_000, 100)], 11), RANGE, 11);
    refused(&curve(&[(0, -999_000, -100)], 11), RANGE, 11);
    refused(&curve(&[(0, 0, 0), (5, 999_000, 100)], 16), RANGE, 21);
}

#[test]
fn bytes_after_the_termination() {
    let mut bytes = three();
    for extra in [0, 1, 255] {
        bytes.push(extra);
        refused(&bytes, TAIL, 35);
    }
    // After all that is wrong in the fields.
    let mut bad = curve(&[(5, 0, 0)], 4);
    bad.push(0);
    refused(&bad, RANGE, 11);
    // A count that is one too small leaves the last piece over.
    let mut bytes = curve(&[(0, 0, 0), (7, 0, 0)], 9);
    bytes[0] = 1;
    refused(&bytes, TAIL, 15);
}
