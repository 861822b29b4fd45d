//! Each refusal number with its place. The places are counted by hand: the
//! header is bytes 0 to 8; of job 0 the mode stands at 9, run time at 10,
//! rollback time at 12, the request's resource at 14, its hold at 15, its
//! rollback at 17, the held count at 19; then the held list, 5 bytes each.

mod common;
use common::{book, cut, job, with_length, BookOf, JobOf, LAST_TIME, NEVER};
use second::refusal::*;
use second::{answer, first, first_listing, listing, plan, record};

/// The refusal by every call that can give it, the record question too, and
/// nothing written.
fn refused(bytes: &[u8], number: u8, place: usize) {
    let expected = Refusal { number, place };
    assert_eq!(plan(bytes), Err(expected), "{bytes:02X?}");
    let mut out = [7u8; 430];
    assert_eq!(answer(bytes, &mut out), Err(expected));
    assert_eq!(out, [7u8; 430]);
    let line = format!("refused {number} at {place}\n");
    assert_eq!(listing(bytes), line);
    assert_eq!(first(bytes), Err(expected));
    assert_eq!(first_listing(bytes), line);
    if number != KNOT {
        assert_eq!(record(bytes, 0), Err(expected));
        assert_eq!(record(bytes, 99), Err(expected));
    }
}

fn accepted(bytes: &[u8]) {
    assert!(plan(bytes).is_ok(), "{:?} {bytes:02X?}", plan(bytes));
}

/// A book of one job and 4 resources.
fn one(job: JobOf) -> BookOf {
    book(4).job(job)
}

#[test]
fn room_comes_before_all_else() {
    for length in [0, 1, 14, 429] {
        let mut out = vec![7; length];
        for bytes in [
            vec![],
            vec![0; 9],
            book(0).bytes(),
            one(job(1, 1).mode(9)).bytes(),
        ] {
            assert_eq!(
                answer(&bytes, &mut out),
                Err(Refusal {
                    number: ROOM,
                    place: 0
                })
            );
        }
        assert_eq!(out, vec![7; length]);
    }
    assert_eq!(answer(&book(0).bytes(), &mut [7; 430]), Ok(14));
    assert_eq!(answer(&book(0).bytes(), &mut [7; 431]), Ok(14));
}

#[test]
fn size_of_short_books() {
    refused(&[], SIZE, 0);
    for length in 1..9usize {
        // Even with a length field that tells the truth.
        let mut bytes = vec![0u8; length];
        bytes[length.min(2) - 1] = length as u8;
        refused(&bytes, SIZE, 0);
        refused(&vec![1; length], SIZE, 0);
    }
}

#[test]
fn size_of_a_wrong_length_field() {
    let good = book(0).bytes();
    for wrong in [0u16, 8, 10, 0x0900, 65_535] {
        let mut bytes = good.clone();
        bytes[..2].copy_from_slice(&wrong.to_be_bytes());
        refused(&bytes, SIZE, 0);
    }
    // SIZE comes before VERSION and COUNT.
    refused(&[0, 8, 9, 99, 99, 255, 0, 0, 0], SIZE, 0);
}

#[test]
fn size_of_a_book_longer_than_its_field_can_say() {
    let longest = book(0).tail(&vec![0; 65_535 - 9]).bytes();
    refused(&longest, TAIL, 9);
    // 65,536 is 0 and 65,545 is 9 in two bytes.
    for (length, field) in [(65_536, 0u16), (65_545, 9), (65_545, 65_535)] {
        let mut bytes = book(0).bytes();
        bytes.resize(length, 0);
        bytes[..2].copy_from_slice(&field.to_be_bytes());
        refused(&bytes, SIZE, 0);
    }
}

#[test]
fn version() {
    for version in [0, 2, 255] {
        refused(&book(0).version(version).bytes(), VERSION, 2);
    }
    // Before COUNT.
    let mut bytes = book(33).version(2).bytes();
    bytes[3] = 33;
    refused(&bytes, VERSION, 2);
}

#[test]
fn counts() {
    let mut bytes = book(0).bytes();
    bytes[3] = 33;
    refused(&bytes, COUNT, 3);
    refused(&book(33).bytes(), COUNT, 4);
    refused(&book(255).bytes(), COUNT, 4);
    // Jobs before resources, both before now.
    let mut bytes = book(33).now(LAST_TIME + 1).bytes();
    refused(&bytes, COUNT, 4);
    bytes[3] = 33;
    refused(&bytes, COUNT, 3);
    // 32 of each are allowed.
    let mut full = book(32);
    for _ in 0..32 {
        full = full.job(job(1, 1));
    }
    accepted(&full.bytes());
}

#[test]
fn now() {
    accepted(&book(0).now(LAST_TIME).bytes());
    refused(&book(0).now(LAST_TIME + 1).bytes(), RANGE, 5);
    refused(&book(0).now(u32::MAX).bytes(), RANGE, 5);
    // Before the jobs.
    refused(&one(job(1, 1).mode(2)).now(u32::MAX).bytes(), RANGE, 5);
}

#[test]
fn every_cut_is_met_at_the_field_it_falls_in() {
    let whole = book(4)
        .job(
            job(9, 1)
                .rollback(5)
                .requests(3, 9, 5)
                .holds(1, 9, 5)
                .holds(2, 1, 1),
        )
        .job(job(9, 1).curve(&[(0, 5, 0), (9, 6, 1)], 10))
        .bytes();
    // Job 0 is bytes 9 to 44, job 1 bytes 45 to 80.
    let widths_of_job_0 = [1, 2, 2, 1, 2, 2, 1, 1, 2, 2, 1, 2, 2, 1, 4, 4, 2, 4];
    let widths_of_job_1 = [1, 2, 2, 1, 2, 2, 1, 1, 4, 4, 2, 4, 4, 2, 4];
    let mut field = 9;
    for width in widths_of_job_0.into_iter().chain(widths_of_job_1) {
        for length in field..field + width {
            refused(&cut(&whole, length), CUT, field);
        }
        field += width;
    }
    assert_eq!(field, whole.len());
    accepted(&whole);
    // A job that isn't there at all.
    let mut bytes = book(0).bytes();
    bytes[3] = 1;
    refused(&bytes, CUT, 9);
    // CUT before RANGE: half a run time of 0.
    refused(&cut(&one(job(0, 1)).bytes(), 11), CUT, 10);
}

#[test]
fn mode_and_times_of_a_job() {
    refused(&one(job(1, 1).mode(2)).bytes(), RANGE, 9);
    refused(&one(job(1, 1).mode(255)).bytes(), RANGE, 9);
    refused(&one(job(0, 1)).bytes(), RANGE, 10);
    refused(&one(job(60_001, 1)).bytes(), RANGE, 10);
    refused(&one(job(65_535, 1)).bytes(), RANGE, 10);
    accepted(&one(job(60_000, 1)).bytes());
    refused(&one(job(1, 1).rollback(0)).bytes(), RANGE, 12);
    refused(&one(job(1, 1).rollback(30_001)).bytes(), RANGE, 12);
    refused(&one(job(1, 1).rollback(65_534)).bytes(), RANGE, 12);
    accepted(&one(job(1, 1).rollback(30_000)).bytes());
    accepted(&one(job(1, 1).never()).bytes());
}

#[test]
fn a_request() {
    refused(&one(job(9, 1).requests(4, 1, 1)).bytes(), RANGE, 14);
    refused(&one(job(9, 1).requests(254, 1, 1)).bytes(), RANGE, 14);
    refused(&book(0).job(job(9, 1).requests(0, 1, 1)).bytes(), RANGE, 14);
    refused(&one(job(9, 1).requests(3, 0, 1)).bytes(), RANGE, 15);
    refused(&one(job(9, 1).requests(3, 10, 1)).bytes(), RANGE, 15);
    accepted(&one(job(9, 1).requests(3, 9, 1)).bytes());
    refused(&one(job(9, 1).requests(3, 9, 0)).bytes(), RANGE, 17);
    refused(&one(job(9, 1).requests(3, 9, 30_001)).bytes(), RANGE, 17);
    refused(&one(job(9, 1).requests(3, 9, 65_534)).bytes(), RANGE, 17);
    // A request's rollback may pass the job's, and be never on its own.
    accepted(&one(job(9, 1).requests(3, 9, 30_000)).bytes());
    accepted(&one(job(9, 1).requests(3, 9, NEVER)).bytes());
    accepted(&one(job(9, 1).never().requests(3, 9, 1)).bytes());
}

#[test]
fn no_request_has_no_times() {
    refused(&one(job(9, 1).requests(255, 1, 0)).bytes(), RANGE, 15);
    refused(&one(job(9, 1).requests(255, 0, 1)).bytes(), RANGE, 17);
    refused(&one(job(9, 1).requests(255, 0, NEVER)).bytes(), RANGE, 17);
    refused(&one(job(9, 1).requests(255, 1, 1)).bytes(), RANGE, 15);
}

#[test]
fn held_resources() {
    // The count.
    let mut bytes = one(job(9, 1)).bytes();
    bytes[19] = 33;
    refused(&bytes, RANGE, 19);
    // The resource.
    refused(&one(job(9, 1).holds(4, 1, 1)).bytes(), RANGE, 20);
    refused(&one(job(9, 1).holds(255, 1, 1)).bytes(), RANGE, 20);
    refused(
        &one(job(9, 1).holds(0, 1, 1).holds(4, 1, 1)).bytes(),
        RANGE,
        25,
    );
    // The hold.
    refused(&one(job(9, 1).holds(3, 0, 1)).bytes(), RANGE, 21);
    refused(&one(job(9, 1).holds(3, 10, 1)).bytes(), RANGE, 21);
    // The rollback: up to the job's.
    refused(
        &one(job(9, 1).rollback(7).holds(3, 9, 0)).bytes(),
        RANGE,
        23,
    );
    refused(
        &one(job(9, 1).rollback(7).holds(3, 9, 8)).bytes(),
        RANGE,
        23,
    );
    accepted(&one(job(9, 1).rollback(7).holds(3, 9, 7)).bytes());
}

#[test]
fn held_rollbacks_are_never_exactly_when_the_jobs_is() {
    refused(
        &one(job(9, 1).rollback(7).holds(3, 9, NEVER)).bytes(),
        RANGE,
        23,
    );
    refused(&one(job(9, 1).never().holds(3, 9, 7)).bytes(), RANGE, 23);
    refused(&one(job(9, 1).never().holds(3, 9, 0)).bytes(), RANGE, 23);
    refused(
        &one(job(9, 1).never().holds(3, 9, 65_534)).bytes(),
        RANGE,
        23,
    );
    accepted(&one(job(9, 1).never().holds(3, 9, NEVER)).bytes());
}

#[test]
fn a_resource_held_twice() {
    // In one job: the second list entry's resource stands at 25.
    refused(
        &one(job(9, 1).holds(2, 9, 1).holds(2, 9, 1)).bytes(),
        TWICE,
        25,
    );
    // RANGE of an earlier field comes first.
    refused(
        &one(job(9, 1).holds(2, 10, 1).holds(2, 9, 1)).bytes(),
        RANGE,
        21,
    );
    // TWICE before what follows it.
    refused(
        &one(job(9, 1).holds(2, 9, 1).holds(2, 0, 0)).bytes(),
        TWICE,
        25,
    );
    // Across jobs: job 0 has 31 bytes, so job 1 begins at 40 and its first
    // held resource stands at 51.
    let across = book(4)
        .job(job(9, 1).holds(2, 9, 1))
        .job(job(9, 1).holds(2, 9, 1))
        .bytes();
    assert_eq!(
        record(&book(4).job(job(9, 1).holds(2, 9, 1)).bytes(), 0),
        Ok(Some(9..40))
    );
    refused(&across, TWICE, 51);
}

#[test]
fn pieces() {
    // With no hold the piece count stands at 20, start at 21, value at 25,
    // slope at 29; the second piece is 10 bytes later.
    let mut bytes = one(job(9, 1)).bytes();
    bytes[20] = 0;
    refused(&bytes, RANGE, 20);
    bytes[20] = 9;
    refused(&bytes, RANGE, 20);
    let eight: Vec<(u32, i32, i16)> = (0..8).map(|start| (start, 1, 0)).collect();
    accepted(&one(job(9, 1).curve(&eight, 7)).bytes());

    refused(
        &one(job(9, 1).curve(&[(LAST_TIME + 1, 0, 0)], LAST_TIME)).bytes(),
        RANGE,
        21,
    );
    refused(
        &one(job(9, 1).curve(&[(u32::MAX, 0, 0)], LAST_TIME)).bytes(),
        RANGE,
        21,
    );
    accepted(&one(job(9, 1).curve(&[(LAST_TIME, 0, 0)], LAST_TIME)).bytes());
    for value in [-1_000_001, 1_000_001, i32::MIN, i32::MAX] {
        refused(&one(job(9, value)).bytes(), RANGE, 25);
    }
    for value in [-1_000_000, 1_000_000] {
        accepted(&one(job(9, value)).bytes());
    }
    for slope in [-1_001, 1_001, i16::MIN, i16::MAX] {
        refused(
            &one(job(9, 1).curve(&[(0, 0, slope)], 0)).bytes(),
            RANGE,
            29,
        );
    }
    for slope in [-1_000, 1_000] {
        accepted(&one(job(9, 1).curve(&[(0, 0, slope)], 1_000)).bytes());
    }
}

#[test]
fn starts_rise_strictly() {
    refused(
        &one(job(9, 1).curve(&[(5, 0, 0), (5, 0, 0)], 9)).bytes(),
        RANGE,
        31,
    );
    refused(
        &one(job(9, 1).curve(&[(5, 0, 0), (4, 0, 0)], 9)).bytes(),
        RANGE,
        31,
    );
    refused(
        &one(job(9, 1).curve(&[(5, 0, 0), (6, 0, 0), (6, 0, 0)], 9)).bytes(),
        RANGE,
        41,
    );
    refused(
        &one(job(9, 1).curve(&[(5, 0, 0), (LAST_TIME + 1, 0, 0)], 9)).bytes(),
        RANGE,
        31,
    );
    accepted(&one(job(9, 1).curve(&[(5, 0, 0), (6, 0, 0)], 6)).bytes());
}

#[test]
fn a_piece_ends_in_range_before_the_next_start() {
    // From 999,000 at slope 100 the piece reaches 1,000,000 at 10.
    accepted(&one(job(9, 1).curve(&[(0, 999_000, 100), (11, 0, 0)], 20)).bytes());
    refused(
        &one(job(9, 1).curve(&[(0, 999_000, 100), (12, 0, 0)], 20)).bytes(),
        RANGE,
        31,
    );
    accepted(&one(job(9, 1).curve(&[(0, -999_000, -100), (11, 0, 0)], 20)).bytes());
    refused(
        &one(job(9, 1).curve(&[(0, -999_000, -100), (12, 0, 0)], 20)).bytes(),
        RANGE,
        31,
    );
    // Judged at the start that fixes the end, before that piece's own value.
    let bad_after = [(0, 999_000, 100), (12, 2_000_000, 0)];
    refused(&one(job(9, 1).curve(&bad_after, 20)).bytes(), RANGE, 31);
    // Two pieces 1 ms apart: the first ends where it starts.
    accepted(&one(job(9, 1).curve(&[(0, 1_000_000, 1_000), (1, 0, 0)], 20)).bytes());
    refused(
        &one(job(9, 1).curve(&[(0, 1_000_000, 1), (2, 0, 0)], 20)).bytes(),
        RANGE,
        31,
    );
    // The widest product there is.
    refused(
        &one(job(9, 1).curve(&[(0, 0, 1_000), (LAST_TIME, 0, 0)], LAST_TIME)).bytes(),
        RANGE,
        31,
    );
    refused(
        &one(job(9, 1).curve(&[(0, 0, -1_000), (LAST_TIME, 0, 0)], LAST_TIME)).bytes(),
        RANGE,
        31,
    );
}

#[test]
fn termination() {
    // With one piece it stands at 31.
    refused(&one(job(9, 1).curve(&[(5, 0, 0)], 4)).bytes(), RANGE, 31);
    accepted(&one(job(9, 1).curve(&[(5, 0, 0)], 5)).bytes());
    refused(&one(job(9, 1).terminates(LAST_TIME + 1)).bytes(), RANGE, 31);
    refused(&one(job(9, 1).terminates(u32::MAX)).bytes(), RANGE, 31);
    accepted(&one(job(9, 1).terminates(LAST_TIME)).bytes());
    // The last piece must be in range at termination itself.
    accepted(&one(job(9, 1).curve(&[(0, 999_000, 100)], 10)).bytes());
    refused(
        &one(job(9, 1).curve(&[(0, 999_000, 100)], 11)).bytes(),
        RANGE,
        31,
    );
    refused(
        &one(job(9, 1).curve(&[(0, -999_000, -100)], 11)).bytes(),
        RANGE,
        31,
    );
    refused(
        &one(job(9, 1).curve(&[(0, 0, 0), (5, 999_000, 100)], 16)).bytes(),
        RANGE,
        41,
    );
}

#[test]
fn a_rollback_job_has_no_request_and_no_never_mark() {
    accepted(&one(job(9, 1).mode(1)).bytes());
    accepted(&one(job(9, 1).mode(1).holds(0, 9, 1)).bytes());
    refused(&one(job(9, 1).mode(1).requests(0, 9, 1)).bytes(), MODE, 9);
    refused(&one(job(9, 1).mode(1).never()).bytes(), MODE, 9);
    refused(
        &one(job(9, 1).mode(1).never().requests(0, 9, NEVER)).bytes(),
        MODE,
        9,
    );
    // After the job's last field, so a bad termination comes first.
    refused(
        &one(job(9, 1).mode(1).never().terminates(u32::MAX)).bytes(),
        RANGE,
        31,
    );
    // Before the next job's fields.
    let two = book(4).job(job(9, 1).mode(1).never()).job(job(0, 1));
    refused(&two.bytes(), MODE, 9);
    // A job of one piece and no hold has 26 bytes: job 1 begins at 35.
    let second = book(4).job(job(9, 1)).job(job(9, 1).mode(1).never());
    refused(&second.bytes(), MODE, 35);
    // Before TAIL.
    refused(&one(job(9, 1).mode(1).never()).tail(&[0]).bytes(), MODE, 9);
}

#[test]
fn bytes_after_the_last_job() {
    refused(&book(0).tail(&[0]).bytes(), TAIL, 9);
    refused(&one(job(9, 1)).tail(&[1, 2, 3]).bytes(), TAIL, 35);
    // Before KNOT.
    refused(&knot().tail(&[0]).bytes(), TAIL, 40);
}

/// A job that can't be rolled back and asks for what it holds.
fn knot() -> BookOf {
    book(1).job(job(9, 1).never().holds(0, 9, NEVER).requests(0, 9, NEVER))
}

#[test]
fn a_knot_of_one() {
    refused(&knot().bytes(), KNOT, 0);
    // The record question doesn't look for it.
    assert_eq!(record(&knot().bytes(), 0), Ok(Some(9..40)));
    assert_eq!(record(&knot().bytes(), 1), Ok(None));
}

#[test]
fn the_place_of_a_knot_is_the_lowest_job_on_any() {
    let stuck = |own: u8, other: u8| job(9, 1).never().holds(own, 9, NEVER).requests(other, 1, 1);
    let loose = |own: u8, other: u8| job(9, 1).holds(own, 9, 1).requests(other, 1, 1);
    // Job 0 waits behind the circle of 1 and 3 and is not on it; job 2 is a
    // circle that has a victim.
    let bytes = book(4)
        .job(job(9, 1).never().requests(0, 1, 1))
        .job(stuck(0, 1))
        .job(loose(2, 2))
        .job(stuck(1, 0))
        .bytes();
    refused(&bytes, KNOT, 1);
    // One member that can be rolled back is enough.
    let bytes = book(3)
        .job(stuck(0, 1))
        .job(stuck(1, 2))
        .job(loose(2, 0))
        .bytes();
    assert_eq!(plan(&bytes).map(|plan| plan.victims), Ok(vec![2]));
    // Two knots: 1 with 4, and 2 with 3.
    let bytes = book(5)
        .job(job(9, 1))
        .job(stuck(1, 4))
        .job(stuck(2, 3))
        .job(stuck(3, 2))
        .job(stuck(4, 1))
        .bytes();
    refused(&bytes, KNOT, 1);
}

#[test]
fn the_length_field_of_these_tests_is_right() {
    // Guards the helpers: a wrong length would turn every test into SIZE.
    let bytes = one(job(9, 1)).bytes();
    assert_eq!(with_length(bytes.clone()), bytes);
    assert_eq!(bytes.len(), 35);
}
