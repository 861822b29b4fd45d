//! Reading: from bytes to records, or a refusal.
//!
//! The checks stand in 01's order: SIZE, VERSION, COUNT, then now, then the
//! jobs' fields in book order; for one field CUT, RANGE, TWICE; MODE after a
//! job's last field; then TAIL. KNOT is not a matter of reading (see
//! `circles`), ROOM not one of the book (see `answer`).

use crate::refusal::{Refusal, COUNT, CUT, MODE, RANGE, SIZE, TAIL, TWICE, VERSION};
use std::ops::Range;

/// The never mark: the job can't be rolled back.
pub const NEVER: i64 = 65_535;
/// The request's resource field when there is no request.
pub const NO_REQUEST: i64 = 255;
/// The latest time a book may name.
pub const LAST_TIME: i64 = 2_147_483_647;
pub const MOST_JOBS: i64 = 32;
pub const MOST_RESOURCES: i64 = 32;
pub const MOST_RUN: i64 = 60_000;
pub const MOST_ROLLBACK: i64 = 30_000;
pub const MOST_VALUE: i64 = 1_000_000;
pub const MOST_SLOPE: i64 = 1_000;
pub const MOST_PIECES: i64 = 8;
pub const HEADER: usize = 9;

/// A resource with its hold time and its rollback time; 000 calls this triple
/// a ResourceElement. It stands for a request and for a held resource alike.
#[derive(Clone, Debug, PartialEq, Eq)]
pub struct Claim {
    pub resource: usize,
    pub hold: i64,
    pub rollback: i64,
}

/// One piece of a curve.
#[derive(Clone, Debug, PartialEq, Eq)]
pub struct Piece {
    pub start: i64,
    pub value: i64,
    pub slope: i64,
}

#[derive(Clone, Debug, PartialEq, Eq)]
pub struct Curve {
    pub pieces: Vec<Piece>,
    pub termination: i64,
}

#[derive(Clone, Debug, PartialEq, Eq)]
pub struct Job {
    pub in_rollback: bool,
    /// Run time left.
    pub run: i64,
    /// Rollback time, or `NEVER`.
    pub rollback: i64,
    pub request: Option<Claim>,
    pub held: Vec<Claim>,
    pub curve: Curve,
}

impl Job {
    /// "A job at zero is removed": it is left while neither time is zero.
    pub fn is_left(&self) -> bool {
        self.run >= 1 && self.rollback >= 1
    }

    /// The job's hold of a resource, if it holds it.
    pub fn holding(&self, resource: usize) -> Option<&Claim> {
        self.held.iter().find(|claim| claim.resource == resource)
    }
}

#[derive(Clone, Debug, PartialEq, Eq)]
pub struct Book {
    pub now: i64,
    pub resources: usize,
    pub jobs: Vec<Job>,
    /// Where each job's record stands in the book's bytes.
    pub records: Vec<Range<usize>>,
}

/// Reads a whole book.
pub fn read(bytes: &[u8]) -> Result<Book, Refusal> {
    // A book of more than 65,535 bytes can't have its length in two bytes, so
    // it is refused here like any other wrong length.
    if bytes.len() < HEADER || number(&bytes[0..2]) != bytes.len() as i64 {
        return Err(Refusal::new(SIZE, 0));
    }
    if bytes[2] != 1 {
        return Err(Refusal::new(VERSION, 2));
    }
    if i64::from(bytes[3]) > MOST_JOBS {
        return Err(Refusal::new(COUNT, 3));
    }
    if i64::from(bytes[4]) > MOST_RESOURCES {
        return Err(Refusal::new(COUNT, 4));
    }
    let job_count = usize::from(bytes[3]);
    let resources = usize::from(bytes[4]);

    let mut reader = Reader { bytes, place: 5 };
    let now = reader.unsigned(4)?.within(0, LAST_TIME)?;

    let mut jobs = Vec::new();
    let mut records = Vec::new();
    // The resources met so far in held lists, in this job or an earlier one.
    let mut stood = vec![false; resources];
    for _ in 0..job_count {
        let first = reader.place;
        jobs.push(job(&mut reader, &mut stood)?);
        records.push(first..reader.place);
    }
    reader.all_read()?;
    Ok(Book {
        now,
        resources,
        jobs,
        records,
    })
}

/// Reads the bytes of one curve alone, by the rules that hold for it in a book.
pub fn read_curve(bytes: &[u8]) -> Result<Curve, Refusal> {
    let mut reader = Reader { bytes, place: 0 };
    let curve = curve(&mut reader)?;
    reader.all_read()?;
    Ok(curve)
}

fn job(reader: &mut Reader, stood: &mut [bool]) -> Result<Job, Refusal> {
    let first = reader.place;
    let mode = reader.unsigned(1)?.within(0, 1)?;
    let run = reader.unsigned(2)?.within(1, MOST_RUN)?;
    let field = reader.unsigned(2)?;
    let rollback = field.must(rollback_time(field.value))?;
    let request = request(reader, stood.len(), run)?;
    let held = held_list(reader, stood, run, rollback)?;
    let curve = curve(reader)?;

    let in_rollback = mode == 1;
    if in_rollback && (request.is_some() || rollback == NEVER) {
        return Err(Refusal::new(MODE, first));
    }
    Ok(Job {
        in_rollback,
        run,
        rollback,
        request,
        held,
        curve,
    })
}

/// "1 to 30,000, or 65,535, the never mark".
fn rollback_time(value: i64) -> bool {
    (1..=MOST_ROLLBACK).contains(&value) || value == NEVER
}

/// "A request's hold is 1 to the run time left, its rollback 1 to 30,000 or
/// never; with 255 both are 0."
fn request(reader: &mut Reader, resources: usize, run: i64) -> Result<Option<Claim>, Refusal> {
    let field = reader.unsigned(1)?;
    let resource = field.must(field.value == NO_REQUEST || field.value < resources as i64)?;
    if resource == NO_REQUEST {
        reader.unsigned(2)?.within(0, 0)?;
        reader.unsigned(2)?.within(0, 0)?;
        return Ok(None);
    }
    let hold = reader.unsigned(2)?.within(1, run)?;
    let field = reader.unsigned(2)?;
    let rollback = field.must(rollback_time(field.value))?;
    Ok(Some(Claim {
        resource: resource as usize,
        hold,
        rollback,
    }))
}

fn held_list(
    reader: &mut Reader,
    stood: &mut [bool],
    run: i64,
    rollback_of_job: i64,
) -> Result<Vec<Claim>, Refusal> {
    let count = reader.unsigned(1)?.within(0, MOST_RESOURCES)?;
    let mut held = Vec::new();
    for _ in 0..count {
        let field = reader.unsigned(1)?;
        let resource = field.must(field.value < stood.len() as i64)? as usize;
        if stood[resource] {
            return Err(Refusal::new(TWICE, field.place));
        }
        stood[resource] = true;

        let hold = reader.unsigned(2)?.within(1, run)?;
        // "A held rollback is 1 to the job's rollback time, or never exactly
        // when the job's is never."
        let field = reader.unsigned(2)?;
        let rollback = field.must(if rollback_of_job == NEVER {
            field.value == NEVER
        } else {
            (1..=rollback_of_job).contains(&field.value)
        })?;
        held.push(Claim {
            resource,
            hold,
            rollback,
        });
    }
    Ok(held)
}

fn curve(reader: &mut Reader) -> Result<Curve, Refusal> {
    let count = reader.unsigned(1)?.within(1, MOST_PIECES)?;
    let mut pieces: Vec<Piece> = Vec::new();
    for _ in 0..count {
        let field = reader.unsigned(4)?;
        let start = field.within(0, LAST_TIME)?;
        if let Some(before) = pieces.last() {
            // This start also fixes the end of the piece before: 1 ms earlier.
            field.must(start > before.start && ends_in_range(before, start - 1))?;
        }
        let value = reader.signed(4)?.within(-MOST_VALUE, MOST_VALUE)?;
        let slope = reader.signed(2)?.within(-MOST_SLOPE, MOST_SLOPE)?;
        pieces.push(Piece {
            start,
            value,
            slope,
        });
    }
    // The piece count is at least 1, so there is a last piece.
    let last = &pieces[pieces.len() - 1];
    let field = reader.unsigned(4)?;
    let termination = field.within(last.start, LAST_TIME)?;
    field.must(ends_in_range(last, termination))?;
    Ok(Curve {
        pieces,
        termination,
    })
}

/// "Its value there must be in range too."
fn ends_in_range(piece: &Piece, end: i64) -> bool {
    let value = piece.value + piece.slope * (end - piece.start);
    (-MOST_VALUE..=MOST_VALUE).contains(&value)
}

/// The bytes of the book, or of one curve, and the place reached in them.
struct Reader<'a> {
    bytes: &'a [u8],
    place: usize,
}

impl Reader<'_> {
    /// The next field as an unsigned number, or CUT.
    fn unsigned(&mut self, width: usize) -> Result<Field, Refusal> {
        let place = self.place;
        if place + width > self.bytes.len() {
            return Err(Refusal::new(CUT, place));
        }
        self.place += width;
        Ok(Field {
            place,
            value: number(&self.bytes[place..place + width]),
        })
    }

    /// The next field as a number in two's complement, or CUT.
    fn signed(&mut self, width: usize) -> Result<Field, Refusal> {
        let field = self.unsigned(width)?;
        let all = 1i64 << (8 * width);
        let value = if field.value >= all / 2 {
            field.value - all
        } else {
            field.value
        };
        Ok(Field { value, ..field })
    }

    /// Nothing may stand after the last field: TAIL.
    fn all_read(&self) -> Result<(), Refusal> {
        if self.place < self.bytes.len() {
            return Err(Refusal::new(TAIL, self.place));
        }
        Ok(())
    }
}

/// A field that is there, not yet judged.
#[derive(Clone, Copy)]
struct Field {
    place: usize,
    value: i64,
}

impl Field {
    /// The value, or RANGE at the field's first byte.
    fn must(self, rule_kept: bool) -> Result<i64, Refusal> {
        if rule_kept {
            Ok(self.value)
        } else {
            Err(Refusal::new(RANGE, self.place))
        }
    }

    fn within(self, lowest: i64, highest: i64) -> Result<i64, Refusal> {
        self.must(lowest <= self.value && self.value <= highest)
    }
}

/// A big-endian unsigned number of at most 4 bytes.
fn number(bytes: &[u8]) -> i64 {
    bytes
        .iter()
        .fold(0, |sum, &byte| sum * 256 + i64::from(byte))
}
