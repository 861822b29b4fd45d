//! The record question on accepted books.

mod common;
use common::{book, job};
use second::record;

#[test]
fn each_record_is_a_part_of_the_book() {
    let bytes = book(3)
        .job(job(9, 1))
        .job(job(9, 1).holds(0, 9, 1).holds(2, 9, 1))
        .job(job(9, 1).curve(&[(0, 1, 0), (5, 1, 0), (7, 1, 0)], 9))
        .bytes();
    assert_eq!(record(&bytes, 0), Ok(Some(9..35)));
    assert_eq!(record(&bytes, 1), Ok(Some(35..71)));
    assert_eq!(record(&bytes, 2), Ok(Some(71..117)));
    assert_eq!(bytes.len(), 117);
}

#[test]
fn a_number_at_or_past_the_count_answers_none() {
    let bytes = book(0).job(job(9, 1)).bytes();
    for number in [1, 2, 31, 32, 255, usize::MAX] {
        assert_eq!(record(&bytes, number), Ok(None));
    }
    assert_eq!(record(&book(0).bytes(), 0), Ok(None));
}
