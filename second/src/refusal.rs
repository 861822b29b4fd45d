//! The table of 01, "What a refusal says".

/// A refusal: its number in the table and its place. The place is a byte
/// offset in the bytes that were asked about, a book or one curve, except for
/// KNOT, where it is a job number.
#[derive(Clone, Copy, Debug, PartialEq, Eq)]
pub struct Refusal {
    pub number: u8,
    pub place: usize,
}

/// The output is under 430 bytes. Place 0.
pub const ROOM: u8 = 1;
/// The book is under 9 bytes, or its length field is not its length. Place 0.
pub const SIZE: u8 = 2;
/// The version is not 1. Place 2.
pub const VERSION: u8 = 3;
/// Over 32 jobs (place 3), then over 32 resources (place 4).
pub const COUNT: u8 = 4;
/// A field runs past the end of the bytes. Place: the field's first byte.
pub const CUT: u8 = 5;
/// A field breaks a rule. Place: the field's first byte.
pub const RANGE: u8 = 6;
/// A held resource stood in a held list before. Place: the field's first byte.
pub const TWICE: u8 = 7;
/// A rollback job has a request or the never mark. Place: the job's first byte.
pub const MODE: u8 = 8;
/// Bytes after the last job, or after a curve that is asked about alone. Place:
/// the first of them.
pub const TAIL: u8 = 9;
/// A wait circle has no member that can be rolled back. Place: the lowest job
/// on any such circle.
pub const KNOT: u8 = 10;

impl Refusal {
    pub fn new(number: u8, place: usize) -> Refusal {
        Refusal { number, place }
    }
}

/// The name that 01's table gives to a refusal number.
pub fn name(number: u8) -> &'static str {
    match number {
        ROOM => "ROOM",
        SIZE => "SIZE",
        VERSION => "VERSION",
        COUNT => "COUNT",
        CUT => "CUT",
        RANGE => "RANGE",
        TWICE => "TWICE",
        MODE => "MODE",
        TAIL => "TAIL",
        KNOT => "KNOT",
        _ => "no such refusal",
    }
}
