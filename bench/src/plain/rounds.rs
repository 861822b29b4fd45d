//! The rounds: chains, groups, and the best group of each round.

use super::book::{Book, NONE};
use super::choice::{denser, rolls_back};
use super::Answer;

/// Who waits for whom in one round, and for how long the holder is needed.
pub struct Waits {
    pub holder: [u8; 32],
    pub hold: [u32; 32],
    pub hold_back: [u32; 32],
}

/// A group's parts stand in places `from` to 31, its last job's in 31.
struct Group {
    from: usize,
    job: [u8; 32],
    rollback: [bool; 32],
    span: [u32; 32],
    time: u32,
    utility: i64,
}

const NO_GROUP: Group = Group {
    from: 32,
    job: [0; 32],
    rollback: [false; 32],
    span: [0; 32],
    time: 1,
    utility: 0,
};

pub struct End {
    pub parts: u8,
    pub rounds: u8,
    pub total: i64,
    pub moment: u32,
}

/// Appends the best group round by round until none is above zero.
pub fn all(book: &mut Book, answer: &mut Answer) -> End {
    let mut end = End {
        parts: 0,
        rounds: 0,
        total: 0,
        moment: book.now,
    };
    let mut groups = [NO_GROUP; 2];
    loop {
        let best = best(book, end.moment, &mut groups);
        // Only a group above zero takes the place of the empty one.
        if best.from == 32 {
            return end;
        }
        for at in best.from..32 {
            let (job, time) = (best.job[at], best.span[at]);
            if best.rollback[at] {
                book.rollback_part(usize::from(job), time);
            } else {
                book.run_part(usize::from(job), time);
            }
            answer.part(job, best.rollback[at], time);
        }
        end.parts += 32 - best.from as u8;
        end.rounds += 1;
        end.total += best.utility;
        end.moment += best.time;
    }
}

/// The first part of the first round's group as a number, or 0 if none is above
/// zero.
pub fn first(book: &Book) -> u64 {
    let mut groups = [NO_GROUP; 2];
    let best = best(book, book.now, &mut groups);
    if best.from == 32 {
        return 0;
    }
    let (job, rollback) = (best.job[best.from], best.rollback[best.from]);
    let time = best.span[best.from];
    (u64::from(job) << 24) + (u64::from(rollback) << 16) + u64::from(time)
}

/// The best group of a round. One of the two holds the best so far while the
/// next is built in the other.
fn best<'a>(book: &Book, moment: u32, groups: &'a mut [Group; 2]) -> &'a Group {
    let waits = waits(book);
    let mut best = 0;
    (groups[0].from, groups[0].time, groups[0].utility) = (32, 1, 0);
    for last in 0..book.count {
        if !book.is_left(last) {
            continue;
        }
        let new = 1 - best;
        let candidate = groups[new].build(book, &waits, moment, last);
        if candidate
            && denser(
                groups[new].utility,
                groups[new].time,
                groups[best].utility,
                groups[best].time,
            )
        {
            best = new;
        }
    }
    &groups[best]
}

fn waits(book: &Book) -> Waits {
    let mut waits = Waits {
        holder: [NONE; 32],
        hold: [0; 32],
        hold_back: [0; 32],
    };
    for job in 0..book.count {
        let holder = book.waits_for(job);
        if holder != NONE {
            let resource = usize::from(book.request[job]);
            waits.holder[job] = holder;
            waits.hold[job] = book.hold[resource];
            waits.hold_back[job] = book.hold_back[resource];
        }
    }
    waits
}

impl Group {
    /// Whether it is a candidate. It is left half built at the first finish with
    /// none (R-7 of 02).
    fn build(&mut self, book: &Book, waits: &Waits, moment: u32, last: usize) -> bool {
        // Once the victims are in rollback no wait leads into a circle, so a
        // chain has at most 32 jobs.
        self.from = 31;
        self.job[31] = last as u8;
        let mut holder = waits.holder[last];
        while holder != NONE {
            self.from -= 1;
            self.job[self.from] = holder;
            holder = waits.holder[usize::from(holder)];
        }

        let (mut time, mut utility) = (0, 0);
        for at in self.from..32 {
            let job = usize::from(self.job[at]);
            let rollback;
            let span;
            if at == 31 {
                rollback = book.rolling[job];
                span = if rollback {
                    book.back[job]
                } else {
                    book.run[job]
                };
            } else {
                let chain = &self.job[at..];
                rollback = rolls_back(book, waits, chain, moment, time, utility);
                let next = usize::from(chain[1]);
                span = if rollback {
                    waits.hold_back[next]
                } else {
                    waits.hold[next]
                };
            }
            time += span;
            if !rollback && span == book.run[job] {
                match book.curve[job].worth(moment + time) {
                    Some(worth) => utility += worth,
                    None => return false,
                }
            }
            self.rollback[at] = rollback;
            self.span[at] = span;
        }
        self.time = time;
        self.utility = utility;
        true
    }
}
