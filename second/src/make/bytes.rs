//! Writing records as a book in 01's layout.

use crate::book::{Claim, Job};

/// The bytes of a book. The numbers are taken as they are, whether they keep
/// the rules or not; of each the low bytes of its field's width are written.
pub fn bytes_of(now: i64, resources: usize, jobs: &[Job]) -> Vec<u8> {
    let mut bytes = vec![0, 0, 1, jobs.len() as u8, resources as u8];
    put(&mut bytes, 4, now);
    for job in jobs {
        put(&mut bytes, 1, i64::from(job.in_rollback));
        put(&mut bytes, 2, job.run);
        put(&mut bytes, 2, job.rollback);
        match &job.request {
            None => bytes.extend([255, 0, 0, 0, 0]),
            Some(claim) => put_claim(&mut bytes, claim),
        }
        put(&mut bytes, 1, job.held.len() as i64);
        for claim in &job.held {
            put_claim(&mut bytes, claim);
        }
        put(&mut bytes, 1, job.curve.pieces.len() as i64);
        for piece in &job.curve.pieces {
            put(&mut bytes, 4, piece.start);
            put(&mut bytes, 4, piece.value);
            put(&mut bytes, 2, piece.slope);
        }
        put(&mut bytes, 4, job.curve.termination);
    }
    repair_length(&mut bytes);
    bytes
}

fn put_claim(bytes: &mut Vec<u8>, claim: &Claim) {
    put(bytes, 1, claim.resource as i64);
    put(bytes, 2, claim.hold);
    put(bytes, 2, claim.rollback);
}

fn put(bytes: &mut Vec<u8>, width: usize, number: i64) {
    bytes.extend(&number.to_be_bytes()[8 - width..]);
}

/// Makes the length field the length, where the book has the field.
pub fn repair_length(bytes: &mut [u8]) {
    if bytes.len() >= 2 {
        let length = bytes.len() as u16;
        bytes[..2].copy_from_slice(&length.to_be_bytes());
    }
}
