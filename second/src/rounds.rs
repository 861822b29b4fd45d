//! The rounds: chain (VI.2), group (VI.3), best group (VI.1) and what a part
//! does to the book (VI.4 with 01's three rulings).

pub mod choice;
mod gain;

pub use gain::Gain;

use crate::book::{Job, NEVER};
use crate::circles::waits_for;
use crate::plan::{Part, Plan};
use crate::worth::compare_density;
use choice::{earned, rolls_back, time_of};
use std::cmp::Ordering;

/// A group: the parts that bring its last job to its end. It is a candidate
/// where its gain has a utility: "A group in which any job would finish at a
/// moment with none is not a candidate" (02, R-7).
#[derive(Clone, Debug, PartialEq, Eq)]
pub struct Group {
    pub parts: Vec<Part>,
    pub gain: Gain,
}

/// VI.1: appends the best group round by round until none is above zero.
pub fn all(mut jobs: Vec<Job>, now: i64, victims: Vec<usize>) -> Plan {
    let mut plan = Plan {
        victims,
        parts: Vec::new(),
        rounds: 0,
        total: 0,
        end: now,
    };
    while let Some(group) = round(&jobs, plan.end) {
        for part in &group.parts {
            jobs[part.job] = after(jobs[part.job].clone(), part);
        }
        plan.parts.extend(group.parts);
        plan.rounds += 1;
        plan.total += group.gain.utility.expect("only a candidate is appended");
        plan.end += group.gain.time;
    }
    plan
}

/// One round: "the group of greatest utility per millisecond, ties to the lowest
/// last job, is appended if above zero." None means that the plan ends.
pub fn round(jobs: &[Job], moment: i64) -> Option<Group> {
    let mut best: Option<(Group, i64)> = None;
    for last in 0..jobs.len() {
        if !jobs[last].is_left() {
            continue;
        }
        let Some(group) = group(jobs, moment, last) else {
            continue;
        };
        // No candidate: passed over as if its last job were not left.
        let Some(utility) = group.gain.utility else {
            continue;
        };
        let denser = match &best {
            None => true,
            // The last jobs rise, so a tie stays with the lower one.
            Some((other, its_utility)) => {
                let (new, old) = ((utility, group.gain.time), (*its_utility, other.gain.time));
                compare_density(new, old) == Ordering::Greater
            }
        };
        if denser {
            best = Some((group, utility));
        }
    }
    // A group's time is at least 1, so its density is above zero exactly when
    // its utility is.
    best.filter(|(_, utility)| *utility > 0)
        .map(|(group, _)| group)
}

/// VI.2: the chain of a job, farthest holder first, the job itself last.
/// 01 has it built afresh each round. None if the waits run in a circle, which
/// does not happen once the victims are in rollback.
pub fn chain(jobs: &[Job], last: usize) -> Option<Vec<usize>> {
    let mut chain = vec![last];
    while let Some(holder) = waits_for(jobs, chain[0]) {
        if chain.contains(&holder) {
            return None;
        }
        chain.insert(0, holder);
    }
    Some(chain)
}

/// VI.3: the group of a job, begun at a moment. None as for `chain`.
pub fn group(jobs: &[Job], moment: i64, last: usize) -> Option<Group> {
    let chain = chain(jobs, last)?;
    let mut parts = Vec::new();
    let mut gain = Gain::NOTHING_YET;
    for at in 0..chain.len() {
        let number = chain[at];
        let job = &jobs[number];
        let is_last = at + 1 == chain.len();
        let rollback = if is_last {
            job.in_rollback
        } else {
            rolls_back(jobs, &chain, at, moment, gain)
        };
        let time = time_of(jobs, &chain, at, rollback);
        parts.push(Part {
            job: number,
            rollback,
            time,
        });
        gain = gain.and(time, earned(job, rollback, time, moment + gain.time + time));
    }
    Some(Group { parts, gain })
}

/// The job after one part ("What a part does to the book").
pub fn after(mut job: Job, part: &Part) -> Job {
    if part.rollback {
        job.in_rollback = true;
        job.request = None;
        job.rollback = less(job.rollback, part.time);
        for claim in &mut job.held {
            claim.rollback = less(claim.rollback, part.time);
        }
    } else {
        job = granted(job);
        job.run = less(job.run, part.time);
        for claim in &mut job.held {
            claim.hold = less(claim.hold, part.time);
        }
    }
    // "What reaches zero in a hold or a held rollback frees that resource."
    job.held
        .retain(|claim| claim.hold > 0 && claim.rollback > 0);
    job
}

/// "Stopping at zero."
fn less(left: i64, time: i64) -> i64 {
    (left - time).max(0)
}

/// The grant: the resource becomes held with the request's hold; its rollback
/// is added to the job's and to each of its other held rollbacks, and is the
/// new one's own. If either is never, all are never. The request is gone.
fn granted(mut job: Job) -> Job {
    let Some(mut new) = job.request.take() else {
        return job;
    };
    if job.rollback == NEVER || new.rollback == NEVER {
        job.rollback = NEVER;
        new.rollback = NEVER;
        for claim in &mut job.held {
            claim.rollback = NEVER;
        }
    } else {
        job.rollback += new.rollback;
        for claim in &mut job.held {
            claim.rollback += new.rollback;
        }
    }
    job.held.push(new);
    job
}
