//! Books for corners that chance alone hardly ever finds.

use super::dice::Dice;
use super::numbers::flat;
use super::Draft;
use crate::book::{Claim, Curve, Job, LAST_TIME, NEVER};

fn normal(run: i64, rollback: i64, curve: Curve) -> Job {
    Job {
        in_rollback: false,
        run,
        rollback,
        request: None,
        held: Vec::new(),
        curve,
    }
}

fn claim(resource: usize, hold: i64, rollback: i64) -> Claim {
    Claim {
        resource,
        hold,
        rollback,
    }
}

/// A book close to the last time it can name: three jobs in a chain, of which the
/// second may finish before its curve starts and the third comes too late to
/// finish inside its own. A plan that took it up would end past that time.
pub fn late(dice: &mut Dice) -> Draft {
    let now = LAST_TIME - dice.between(10, 14);
    let back = dice.between(4, 6);
    let mut first = normal(dice.between(15, 25), back, flat(0, dice.between(30, 50)));
    first.held.push(claim(0, dice.between(1, 2), back));
    let mut second = normal(5, 1, flat(now + dice.between(7, 10), dice.between(40, 60)));
    second.request = Some(claim(0, dice.between(1, 5), 1));
    second.held.push(claim(1, 5, 1));
    let mut third = normal(dice.between(10, 60_000), 1, flat(0, dice.between(0, 9)));
    third.request = Some(claim(1, 1, 1));
    Draft {
        now,
        resources: 2,
        jobs: vec![first, second, third],
    }
}

/// A book where a job rolls back in part, what it asked for goes to another,
/// and then the job is needed again. If it kept its request it would now seem
/// to wait for that other.
pub fn turned(dice: &mut Dice) -> Draft {
    let back = dice.between(3, 12);
    let mut turns = normal(20, back, flat(0, dice.between(0, 3)));
    turns
        .held
        .push(claim(0, dice.between(10, 20), dice.between(1, back - 1)));
    turns.held.push(claim(1, dice.between(10, 20), back));
    turns.request = Some(claim(2, dice.between(1, 20), dice.between(1, 3)));
    let mut takes = normal(10, NEVER, flat(0, dice.between(-1, 1)));
    takes.held.push(claim(3, dice.between(1, 3), NEVER));
    takes.request = Some(claim(2, 10, 1));

    let mut jobs = vec![turns, takes];
    for (resource, most) in [(0, 100), (3, 60), (1, 9)] {
        let mut waits = normal(dice.between(1, 2), 1, flat(0, dice.between(1, most)));
        waits.request = Some(claim(resource, 1, 1));
        jobs.push(waits);
    }
    let mut order: Vec<usize> = (0..jobs.len()).collect();
    dice.shuffle(&mut order);
    let jobs = order.iter().map(|&number| jobs[number].clone()).collect();
    Draft {
        now: 0,
        resources: 4,
        jobs,
    }
}

/// Three to five jobs in a chain whose curves begin and end just where the jobs
/// may finish. So it hangs on none which mode is chosen and which group is a
/// candidate, also in groups that are planned (02, R-7).
pub fn narrow(dice: &mut Dice) -> Draft {
    let count = dice.pick(&[3, 3, 4, 5]);
    let now = dice.pick(&[0, 0, 50]);
    let mut jobs = Vec::new();
    for number in 0..count {
        let is_last = number + 1 == count;
        let run = dice.between(1, 6);
        let never = dice.chance(10);
        let rollback = if never { NEVER } else { dice.between(1, 6) };
        // By then all before it may have finished or turned back.
        let around = now + 3 * (number as i64 + 1);
        let lowest = if is_last { 20 } else { -20 };
        let curve = short_curve(dice, around, lowest);
        let mut job = normal(run, rollback, curve);
        let hold = if dice.chance(70) {
            run
        } else {
            dice.between(1, run)
        };
        job.held.push(claim(number, hold, rollback));
        if number > 0 {
            job.request = Some(claim(number - 1, dice.between(1, run), 1));
        }
        jobs.push(job);
    }
    Draft {
        now,
        resources: count,
        jobs,
    }
}

/// A curve that often begins or ends near a moment.
fn short_curve(dice: &mut Dice, around: i64, lowest: i64) -> Curve {
    let mut near = || (around + dice.between(-3, 6)).max(0);
    let (start, middle, end) = (near(), near(), near());
    let start = if dice.chance(30) { start } else { 0 };
    let mut curve = flat(start, dice.between(lowest, 60));
    if middle > start && dice.chance(40) {
        let value = dice.between(lowest, 60);
        curve.pieces.extend(flat(middle, value).pieces);
    }
    if dice.chance(70) {
        curve.termination = end.max(curve.pieces[curve.pieces.len() - 1].start);
    }
    curve
}
