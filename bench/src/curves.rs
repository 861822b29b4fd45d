//! The curves that the worth call is asked about.
//!
//! All calls get one row of bytes. For this one it is the moment, in 4 bytes, and
//! then the curve.

use crate::books::{Set, OF_A_KIND};
use second::book::{Curve, Job, Piece, HEADER};
use second::make::{bytes_of, Dice};

/// A set for each number of pieces, its moments anywhere from the first start to
/// the termination.
pub fn sets() -> Vec<Set> {
    [1, 3, 8].map(set).into()
}

fn set(pieces: usize) -> Set {
    let item = |seed| {
        let mut dice = Dice::new(seed);
        let curve = curve(&mut dice, pieces);
        let t = dice.between(curve.pieces[0].start, curve.termination);
        item(t as u32, &bytes(curve))
    };
    Set {
        name: "one curve",
        size: pieces,
        items: (0..OF_A_KIND).map(item).collect(),
        refused: false,
    }
}

fn curve(dice: &mut Dice, pieces: usize) -> Curve {
    let mut next = dice.between(0, 1_000_000);
    let mut piece = || {
        let start = next;
        next += dice.between(50, 500);
        Piece {
            start,
            value: dice.between(-5_000, 5_000),
            slope: dice.between(-10, 10),
        }
    };
    let pieces = (0..pieces).map(|_| piece()).collect();
    Curve {
        pieces,
        termination: next,
    }
}

/// The curve's bytes are the end of a book with one job that holds nothing.
fn bytes(curve: Curve) -> Vec<u8> {
    let job = Job {
        in_rollback: false,
        run: 1,
        rollback: 1,
        request: None,
        held: Vec::new(),
        curve,
    };
    bytes_of(0, 0, &[job])[HEADER + 11..].to_vec()
}

fn item(t: u32, curve: &[u8]) -> Vec<u8> {
    [&t.to_be_bytes(), curve].concat()
}

/// The moment and the curve again. A row of under 4 bytes is all curve.
pub fn taken_apart(item: &[u8]) -> (u32, &[u8]) {
    match item.split_first_chunk() {
        Some((t, curve)) => (u32::from_be_bytes(*t), curve),
        None => (0, item),
    }
}

/// What is asked about a random book: each of its curves at a few moments, a byte
/// less and a byte more of it; and, whatever the book is, its bytes, of which the
/// first four are then the moment.
pub fn in_book(book: &[u8]) -> Vec<Vec<u8>> {
    let mut items = vec![book.to_vec()];
    let Ok(read) = second::book::read(book) else {
        return items;
    };
    for (job, record) in read.jobs.iter().zip(&read.records) {
        let first = record.start + 11 + 5 * job.held.len();
        let bytes = &book[first..record.end];
        let (start, end) = (job.curve.pieces[0].start, job.curve.termination);
        for t in [start - 1, start, (start + end) / 2, end, end + 1] {
            items.push(item(t as u32, bytes));
        }
        items.push(item(end as u32, &bytes[..bytes.len() - 1]));
        items.push(item(end as u32, &[bytes, &[0]].concat()));
    }
    items
}
