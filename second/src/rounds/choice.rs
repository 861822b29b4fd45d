//! The choice of a mode (VI.5), and what a part takes and earns.

use super::gain::Gain;
use crate::book::{Claim, Job, NEVER};
use crate::worth::worth;

/// Whether the job at a place before the last of a chain rolls back, the group
/// so far having come to `so_far`.
pub fn rolls_back(jobs: &[Job], chain: &[usize], at: usize, moment: i64, so_far: Gain) -> bool {
    let job = &jobs[chain[at]];
    if job.in_rollback {
        return true;
    }
    if job.rollback == NEVER {
        return false;
    }
    let normal = course(jobs, chain, at, moment, so_far, false);
    let back = course(jobs, chain, at, moment, so_far, true);
    back.beats_normal(normal)
}

/// One course of VI.5 to the end of the chain: the job at `at` in the mode
/// given, later jobs normal unless in rollback. It starts from the time and
/// utility of the group so far (line 31 read as 01 does).
/// Where lines 10, 18 and 20 credit every normal job, R-3 of 02 has: "the choice
/// credits a job before the last only where its hold is all its run time left."
/// The loop runs over the jobs before the last and the last alike: `time_of` and
/// `earned` know the difference.
pub fn course(
    jobs: &[Job],
    chain: &[usize],
    at: usize,
    moment: i64,
    so_far: Gain,
    rollback: bool,
) -> Gain {
    let mut gain = so_far;
    for later in at..chain.len() {
        let job = &jobs[chain[later]];
        let back = if later == at {
            rollback
        } else {
            job.in_rollback
        };
        let time = time_of(jobs, chain, later, back);
        gain = gain.and(time, earned(job, back, time, moment + gain.time + time));
    }
    gain
}

/// What a part that ends at `end` earns, in a group and, since R-3 of 02, in the
/// choice of a mode: "A normal run that is all its run time left earns its worth
/// at that moment", or none if the curve has none there (R-7). That holds for the
/// last job of a chain always. All else earns 0 at any time.
pub fn earned(job: &Job, rollback: bool, time: i64, end: i64) -> Option<i64> {
    if !rollback && time == job.run {
        worth(&job.curve, end)
    } else {
        Some(0)
    }
}

/// How long the job at a place in a chain runs in a mode: before the last, its
/// hold of what the next requests, or its rollback time of it; the last to its
/// end.
pub fn time_of(jobs: &[Job], chain: &[usize], at: usize, rollback: bool) -> i64 {
    let job = &jobs[chain[at]];
    let (hold, back) = match chain.get(at + 1) {
        None => (job.run, job.rollback),
        Some(&next) => {
            let claim = claim_on(job, &jobs[next]);
            (claim.hold, claim.rollback)
        }
    };
    if rollback {
        back
    } else {
        hold
    }
}

/// What `job` holds and `next` requests. The chain was built by following just
/// this, so it is there.
fn claim_on<'a>(job: &'a Job, next: &Job) -> &'a Claim {
    let request = next
        .request
        .as_ref()
        .expect("a later job of a chain has a request");
    job.holding(request.resource)
        .expect("an earlier job of a chain holds it")
}
