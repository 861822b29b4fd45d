//! A small builder of books for the tests. It writes bytes and knows no rule,
//! so that a book can break any of them. It is apart from `second::make`.
#![allow(dead_code)]

pub mod twelve;

use second::{Part, Plan};

pub const NEVER: u32 = 65_535;
pub const LAST_TIME: u32 = 2_147_483_647;

pub struct BookOf {
    version: u8,
    resources: u8,
    now: u32,
    jobs: Vec<JobOf>,
    tail: Vec<u8>,
}

pub fn book(resources: u8) -> BookOf {
    BookOf {
        version: 1,
        resources,
        now: 0,
        jobs: Vec::new(),
        tail: Vec::new(),
    }
}

impl BookOf {
    pub fn now(mut self, now: u32) -> BookOf {
        self.now = now;
        self
    }

    pub fn version(mut self, version: u8) -> BookOf {
        self.version = version;
        self
    }

    pub fn job(mut self, job: JobOf) -> BookOf {
        self.jobs.push(job);
        self
    }

    pub fn tail(mut self, bytes: &[u8]) -> BookOf {
        self.tail = bytes.to_vec();
        self
    }

    pub fn bytes(&self) -> Vec<u8> {
        let mut bytes = vec![0, 0, self.version, self.jobs.len() as u8, self.resources];
        bytes.extend(self.now.to_be_bytes());
        for job in &self.jobs {
            bytes.extend(job.bytes());
        }
        bytes.extend(&self.tail);
        with_length(bytes)
    }
}

/// The bytes with their length field made right.
pub fn with_length(mut bytes: Vec<u8>) -> Vec<u8> {
    let length = bytes.len() as u16;
    bytes[..2].copy_from_slice(&length.to_be_bytes());
    bytes
}

/// The first `length` bytes of a book, their length field made right.
pub fn cut(bytes: &[u8], length: usize) -> Vec<u8> {
    with_length(bytes[..length].to_vec())
}

#[derive(Clone)]
pub struct JobOf {
    mode: u8,
    run: u32,
    rollback: u32,
    request: (u8, u32, u32),
    held: Vec<(u8, u32, u32)>,
    pieces: Vec<(u32, i32, i16)>,
    termination: u32,
}

/// A normal job with no request and no hold, its curve flat from 0 to 1,000.
/// "A rollback not named is 1."
pub fn job(run: u32, worth: i32) -> JobOf {
    JobOf {
        mode: 0,
        run,
        rollback: 1,
        request: (255, 0, 0),
        held: Vec::new(),
        pieces: vec![(0, worth, 0)],
        termination: 1_000,
    }
}

impl JobOf {
    pub fn mode(mut self, mode: u8) -> JobOf {
        self.mode = mode;
        self
    }

    pub fn rollback(mut self, rollback: u32) -> JobOf {
        self.rollback = rollback;
        self
    }

    pub fn never(self) -> JobOf {
        self.rollback(NEVER)
    }

    pub fn requests(mut self, resource: u8, hold: u32, rollback: u32) -> JobOf {
        self.request = (resource, hold, rollback);
        self
    }

    pub fn holds(mut self, resource: u8, hold: u32, rollback: u32) -> JobOf {
        self.held.push((resource, hold, rollback));
        self
    }

    /// Replaces the flat curve.
    pub fn curve(mut self, pieces: &[(u32, i32, i16)], termination: u32) -> JobOf {
        self.pieces = pieces.to_vec();
        self.termination = termination;
        self
    }

    pub fn terminates(mut self, termination: u32) -> JobOf {
        self.termination = termination;
        self
    }

    fn bytes(&self) -> Vec<u8> {
        let mut bytes = vec![self.mode];
        bytes.extend((self.run as u16).to_be_bytes());
        bytes.extend((self.rollback as u16).to_be_bytes());
        bytes.extend(claim(&self.request));
        bytes.push(self.held.len() as u8);
        for held in &self.held {
            bytes.extend(claim(held));
        }
        bytes.extend(curve(&self.pieces, self.termination));
        bytes
    }
}

/// A curve's bytes: start, value and slope of each piece, then termination.
pub fn curve(pieces: &[(u32, i32, i16)], termination: u32) -> Vec<u8> {
    let mut bytes = vec![pieces.len() as u8];
    for (start, value, slope) in pieces {
        bytes.extend(start.to_be_bytes());
        bytes.extend(value.to_be_bytes());
        bytes.extend(slope.to_be_bytes());
    }
    bytes.extend(termination.to_be_bytes());
    bytes
}

fn claim(&(resource, hold, rollback): &(u8, u32, u32)) -> Vec<u8> {
    let mut bytes = vec![resource];
    bytes.extend((hold as u16).to_be_bytes());
    bytes.extend((rollback as u16).to_be_bytes());
    bytes
}

/// Bytes from the hex that 01 prints; bars are not bytes.
pub fn hex(text: &str) -> Vec<u8> {
    text.split_whitespace()
        .filter(|word| *word != "|")
        .map(|word| u8::from_str_radix(word, 16).unwrap())
        .collect()
}

/// Parts written as 01 writes them: "0 N 6, 1 A 5".
pub fn parts(text: &str) -> Vec<Part> {
    let mut parts = Vec::new();
    for one in text.split(',').map(str::trim).filter(|one| !one.is_empty()) {
        let words: Vec<&str> = one.split_whitespace().collect();
        parts.push(Part {
            job: words[0].parse().unwrap(),
            rollback: match words[1] {
                "N" => false,
                "A" => true,
                other => panic!("no such mode: {other}"),
            },
            time: words[2].parse().unwrap(),
        });
    }
    parts
}

/// A plan as 01 states it.
pub fn stated(victims: &[usize], text: &str, total: i64, end: i64, rounds: usize) -> Plan {
    Plan {
        victims: victims.to_vec(),
        parts: parts(text),
        rounds,
        total,
        end,
    }
}
