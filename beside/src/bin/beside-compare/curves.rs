//! Which bytes the worth call is asked about, and at which moments.

use second::book::{Book, HEADER, LAST_TIME};
use second::make::Dice;

/// More jobs of one book would take longer than its plans do.
const MOST_JOBS: usize = 4;
/// How many damaged copies are made of each curve.
const DAMAGED: usize = 4;

/// The curves of some jobs, as they stand in a book that was read.
pub fn curves<'a>(bytes: &'a [u8], book: &Book) -> Vec<&'a [u8]> {
    let step = book.jobs.len().div_ceil(MOST_JOBS).max(1);
    let jobs = book.jobs.iter().zip(&book.records).step_by(step);
    jobs.map(|(job, record)| &bytes[record.start + 11 + 5 * job.held.len()..record.end])
        .collect()
}

/// A curve as it is, a byte shorter, much shorter, a byte longer, and with one
/// byte changed in several ways.
pub fn copies(curve: &[u8], dice: &mut Dice) -> Vec<Vec<u8>> {
    let mut copies = vec![
        curve.to_vec(),
        curve[..curve.len() - 1].to_vec(),
        curve[..dice.below(curve.len())].to_vec(),
        [curve, &[dice.roll() as u8]].concat(),
    ];
    for _ in 0..DAMAGED {
        let mut copy = curve.to_vec();
        let byte = &mut copy[dice.below(curve.len())];
        // A small step often leaves a curve that is still good, but worth
        // something else; the others reach the ends of a field.
        *byte = match dice.below(4) {
            0 => byte.wrapping_add(1),
            1 => byte.wrapping_sub(1),
            2 => dice.pick(&[0, 1, 8, 9, 0x7F, 0x80, 0xFF]),
            _ => dice.roll() as u8,
        };
        copies.push(copy);
    }
    copies
}

/// Where the bytes of a book are taken for a curve, up to the book's end: at its
/// first byte, where job 0 has its curve if it holds nothing, and anywhere.
pub fn places(book: &[u8], dice: &mut Dice) -> Vec<usize> {
    let places = [0, HEADER + 11, dice.below(book.len() + 1)];
    places
        .into_iter()
        .filter(|&place| place <= book.len())
        .collect()
}

/// The first and the last moment, the last that a book may name and the one after
/// it, and those at and beside each start and the termination. A refusal does not
/// look at the moment, so two are enough there.
pub fn moments(part: &[u8], refused: bool) -> Vec<u32> {
    let last = LAST_TIME as u32;
    let mut moments = vec![0, u32::MAX, last, last + 1];
    if refused {
        moments.truncate(2);
        return moments;
    }
    // Starts stand 10 bytes apart, and the termination after them too.
    let fields = part[1..].chunks(10).filter_map(|field| field.first_chunk());
    for edge in fields.map(|field| u32::from_be_bytes(*field)) {
        moments.extend([edge.wrapping_sub(1), edge, edge + 1]);
    }
    moments
}
