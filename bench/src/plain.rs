//! A plain optimised planner to measure the others by, written from 01's rules:
//! arrays by job and by resource, no allocation, 32-bit times and 64-bit worths.
//! It has the C face's calls.

mod book;
mod choice;
mod circles;
mod parts;
mod read;
mod rounds;

use book::{Book, Curve};
use circles::Victims;

/// As the proved planner's plan call.
pub fn plan(bytes: &[u8], out: &mut [u8]) -> u64 {
    if out.len() < 430 {
        return ROOM << 32;
    }
    let mut book = Book::empty();
    let victims = match settle(&mut book, bytes) {
        Ok(victims) => victims,
        Err(refusal) => return refusal,
    };
    // From here on nothing is refused, so the answer is written as it comes.
    let mut answer = Answer { out, place: 3 };
    answer.byte(victims.count);
    for &victim in victims.listed() {
        answer.byte(victim);
    }
    let part_count = answer.place;
    answer.place += 1;
    let end = rounds::all(&mut book, &mut answer);
    answer.out[part_count] = end.parts;
    answer.byte(end.rounds);
    answer.number(end.total as u32);
    answer.number(end.moment);
    let length = answer.place as u16;
    answer.out[..2].copy_from_slice(&length.to_be_bytes());
    answer.out[2] = 1;
    0
}

/// As the proved planner's question of the first part.
pub fn first(bytes: &[u8]) -> u64 {
    let mut book = Book::empty();
    match settle(&mut book, bytes) {
        Ok(_) => rounds::first(&book),
        Err(refusal) => refusal,
    }
}

/// Reads into an empty book and sends one job of each circle into rollback.
fn settle(book: &mut Book, bytes: &[u8]) -> Result<Victims, u64> {
    book.read(bytes)?;
    let victims = circles::victims(book)?;
    for &victim in victims.listed() {
        book.send_back(usize::from(victim));
    }
    Ok(victims)
}

/// As the proved planner's record question.
pub fn record(bytes: &[u8], job: usize) -> u64 {
    let mut book = Book::empty();
    match book.read(bytes) {
        Err(refusal) => refusal,
        Ok(()) if job < book.count => {
            (u64::from(book.first[job]) << 16) + u64::from(book.first[job + 1])
        }
        Ok(()) => 0,
    }
}

/// As the proved planner's worth call.
pub fn worth(bytes: &[u8], moment: u32) -> u64 {
    match Curve::alone(bytes) {
        Ok(curve) => match curve.worth(moment) {
            Some(worth) => u64::from(worth as u32),
            None => WORTH_NONE,
        },
        Err(refusal) => refusal,
    }
}

/// The answer's bytes as they are written.
struct Answer<'a> {
    out: &'a mut [u8],
    place: usize,
}

impl Answer<'_> {
    fn byte(&mut self, byte: u8) {
        self.out[self.place] = byte;
        self.place += 1;
    }

    fn number(&mut self, number: u32) {
        self.out[self.place..self.place + 4].copy_from_slice(&number.to_be_bytes());
        self.place += 4;
    }

    fn part(&mut self, job: u8, rollback: bool, time: u32) {
        let time = (time as u16).to_be_bytes();
        let part = [job, u8::from(rollback), time[0], time[1]];
        self.out[self.place..self.place + 4].copy_from_slice(&part);
        self.place += 4;
    }
}

const WORTH_NONE: u64 = 1 << 31;

const ROOM: u64 = 1;
const SIZE: u64 = 2;
const VERSION: u64 = 3;
const COUNT: u64 = 4;
const CUT: u64 = 5;
const RANGE: u64 = 6;
const TWICE: u64 = 7;
const MODE: u64 = 8;
const TAIL: u64 = 9;
const KNOT: u64 = 10;

/// The number that the calls give for a refusal.
fn refused<T>(number: u64, place: usize) -> Result<T, u64> {
    Err((number << 32) + place as u64)
}
