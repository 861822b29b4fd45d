//! Wait circles and their victims.

use super::book::{Book, NEVER, NONE};
use super::{refused, KNOT};

pub struct Victims {
    pub count: u8,
    pub jobs: [u8; 32],
}

impl Victims {
    pub fn listed(&self) -> &[u8] {
        &self.jobs[..usize::from(self.count)]
    }
}

/// On no circle, as far as is known.
const UNSEEN: u8 = 254;

/// The victims by the lowest member of their circle, or KNOT.
pub fn victims(book: &Book) -> Result<Victims, u64> {
    // For each job that is the lowest of a circle: its victim, or NONE if all
    // members are marked never.
    let mut victim_of = [UNSEEN; 32];
    // The walk in which a job was first met.
    let mut met = [0u8; 32];
    for start in 0..book.count {
        let walk = start as u8 + 1;
        let mut at = start;
        while met[at] == 0 {
            met[at] = walk;
            match book.waits_for(at) {
                NONE => break,
                next => at = usize::from(next),
            }
            // Back at a job of this very walk: from it on it is a circle.
            if met[at] == walk {
                let (lowest, victim) = around(book, at);
                victim_of[lowest] = victim;
            }
        }
    }

    let mut victims = Victims {
        count: 0,
        jobs: [0; 32],
    };
    for (lowest, &victim) in victim_of.iter().enumerate() {
        match victim {
            UNSEEN => {}
            NONE => return refused(KNOT, lowest),
            victim => {
                victims.jobs[usize::from(victims.count)] = victim;
                victims.count += 1;
            }
        }
    }
    Ok(victims)
}

/// The lowest member of the circle that a job is on, and its victim.
fn around(book: &Book, start: usize) -> (usize, u8) {
    let mut lowest = start;
    let mut victim = NONE;
    let (mut least, mut least_time) = (0, 1);
    let mut at = start;
    loop {
        lowest = lowest.min(at);
        if book.back[at] != NEVER {
            // No job in rollback has a request, so none is on a circle.
            let time = i64::from(book.run[at]);
            let loss = book.curve[at].worth(book.now + book.run[at]).unwrap_or(0);
            let (new, old) = (loss * least_time, least * time);
            if victim == NONE || new < old || new == old && at < usize::from(victim) {
                victim = at as u8;
                (least, least_time) = (loss, time);
            }
        }
        at = usize::from(book.waits_for(at));
        if at == start {
            return (lowest, victim);
        }
    }
}

impl Book {
    /// The holder of what a job requests, or NONE.
    pub fn waits_for(&self, job: usize) -> u8 {
        match self.request[job] {
            NONE => NONE,
            resource => self.holder[usize::from(resource)],
        }
    }

    pub fn send_back(&mut self, victim: usize) {
        self.rolling[victim] = true;
        self.request[victim] = NONE;
    }
}
