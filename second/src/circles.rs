//! Who waits for whom, wait circles and their victims (000, Algorithm V.1).

use crate::book::{Book, Job, NEVER};
use crate::refusal::{Refusal, KNOT};
use crate::worth::{compare_density, worth};
use std::cmp::Ordering;

/// The job that holds a resource, if any does.
pub fn holder(jobs: &[Job], resource: usize) -> Option<usize> {
    (0..jobs.len()).find(|&number| jobs[number].holding(resource).is_some())
}

/// "A job waits for the holder of what it requests."
pub fn waits_for(jobs: &[Job], number: usize) -> Option<usize> {
    let request = jobs[number].request.as_ref()?;
    holder(jobs, request.resource)
}

/// All wait circles, each with its members rising, by their lowest member.
///
/// A job waits for at most one other, so two circles never share a member, and
/// a job is on a circle exactly when following the waits leads back to it.
pub fn circles(jobs: &[Job]) -> Vec<Vec<usize>> {
    let mut found = Vec::new();
    for start in 0..jobs.len() {
        let mut members = vec![start];
        let mut at = start;
        // No circle is longer than the number of jobs.
        for _ in 0..jobs.len() {
            match waits_for(jobs, at) {
                None => break,
                Some(next) if next == start => {
                    members.sort();
                    // Each circle is met once for each member: keep it only
                    // where the start is its lowest.
                    if members[0] == start {
                        found.push(members);
                    }
                    break;
                }
                Some(next) => {
                    members.push(next);
                    at = next;
                }
            }
        }
    }
    found
}

/// The victims, listed by the lowest member of their circle; or KNOT at the
/// lowest job on any circle whose members are all marked never.
pub fn victims(now: i64, jobs: &[Job]) -> Result<Vec<usize>, Refusal> {
    let mut victims = Vec::new();
    for circle in circles(jobs) {
        match victim(now, jobs, &circle) {
            Some(number) => victims.push(number),
            // The circles come by their lowest member, so the first such
            // circle has the lowest job of all of them.
            None => return Err(Refusal::new(KNOT, circle[0])),
        }
    }
    Ok(victims)
}

/// The member, not marked never, of least loss; ties go to the lowest number.
fn victim(now: i64, jobs: &[Job], circle: &[usize]) -> Option<usize> {
    let mut best: Option<usize> = None;
    for &number in circle {
        if jobs[number].rollback == NEVER {
            continue;
        }
        let less = match best {
            None => true,
            Some(other) => {
                compare_density(loss(now, &jobs[number]), loss(now, &jobs[other])) == Ordering::Less
            }
        };
        if less {
            best = Some(number);
        }
    }
    best
}

/// LossPUD of V.1 as a fraction: worth at now + run time left, divided by run
/// time left; for a job in rollback 0. "None counts as 0" (02, R-7).
///
/// R-8 took this last clause out of the proved planner, since no member of a
/// circle is in rollback: MODE refuses a job in rollback with a request, and a
/// victim loses its own. Here 01's line stays, so that the comparison of the
/// two planners bears witness that no answer changed.
fn loss(now: i64, job: &Job) -> (i64, i64) {
    if job.in_rollback {
        (0, 1)
    } else {
        (worth(&job.curve, now + job.run).unwrap_or(0), job.run)
    }
}

/// A book's jobs as the first round meets them: the victims are in rollback.
pub struct Settled {
    pub now: i64,
    pub jobs: Vec<Job>,
    pub victims: Vec<usize>,
}

/// Sends one job of each circle into rollback, or gives KNOT.
pub fn settle(book: Book) -> Result<Settled, Refusal> {
    let victims = victims(book.now, &book.jobs)?;
    let mut jobs = book.jobs;
    send_back(&mut jobs, &victims);
    Ok(Settled {
        now: book.now,
        jobs,
        victims,
    })
}

/// "It goes into rollback and loses its request."
pub fn send_back(jobs: &mut [Job], victims: &[usize]) {
    for &number in victims {
        jobs[number].in_rollback = true;
        jobs[number].request = None;
    }
}
