//! Demand 3, asserted sentence by sentence on the replay machine.

use crate::book::{self, Job, NEVER};
use crate::circles;
use crate::plan::{Part, Plan};
use crate::replay::{Machine, Station};
use crate::rounds;

/// What one job has been given over a plan.
#[derive(Clone, Default)]
struct Given {
    run: i64,
    rollback: i64,
    /// The rollback times of its granted requests.
    granted: i64,
}

/// Asserts every sentence of demand 3 for a plan of a book, and gives the
/// first sentence broken in words.
pub fn check_demand3(bytes: &[u8], plan: &Plan) -> Result<(), String> {
    let book = book::read(bytes).map_err(|refusal| format!("not an accepted book: {refusal:?}"))?;
    circles::victims(book.now, &book.jobs)
        .map_err(|refusal| format!("not an accepted book: {refusal:?}"))?;
    for &victim in &plan.victims {
        hold_true(victim < book.jobs.len(), || {
            format!("victim {victim} is no job")
        })?;
    }

    let mut machine = Machine::begin(book.now, &book.jobs, &plan.victims);
    let mut given = vec![Given::default(); book.jobs.len()];
    standing(&machine, book.resources).map_err(|fault| format!("at the start: {fault}"))?;
    for (at, part) in plan.parts.iter().enumerate() {
        let told = |fault: String| format!("part {at} ({part:?}): {fault}");
        before_part(&machine, part).map_err(told)?;
        note(&mut given[part.job], &machine.stations[part.job], part);
        // "Every finish in a plan that earns from a curve is inside it" (02, R-7).
        hold_true(machine.follow(part).is_some(), || {
            format!("it finishes at {}, outside its curve", machine.clock)
        })
        .map_err(told)?;
        standing(&machine, book.resources).map_err(told)?;
    }
    times_add_up(&book.jobs, &machine, &given)?;
    hold_true(machine.paid == plan.total, || {
        format!(
            "the machine paid {}, the plan says {}",
            machine.paid, plan.total
        )
    })?;
    nothing_left_to_gain(&machine)?;

    // Not in demand 3, but known to the machine or told by 01.
    hold_true(machine.clock == plan.end, || {
        format!(
            "the machine ends at {}, the plan at {}",
            machine.clock, plan.end
        )
    })?;
    hold_true(plan.parts.len() <= 96, || "more than 96 parts".to_string())?;
    hold_true(plan.rounds <= book.jobs.len(), || {
        "more rounds than jobs".to_string()
    })
}

/// The sentences about a part as it starts.
fn before_part(machine: &Machine, part: &Part) -> Result<(), String> {
    let Some(station) = machine.stations.get(part.job) else {
        return Err("no such job".to_string());
    };
    hold_true(part.time >= 1, || "a part of no time".to_string())?;
    // "No finished job runs."
    hold_true(!station.finished(), || "its job is finished".to_string())?;
    if part.rollback {
        // "No part is longer than what its job has left in that mode." A job
        // marked never has nothing to run in rollback.
        hold_true(station.rollback_left != NEVER, || {
            "its job can't be rolled back".to_string()
        })?;
        return hold_true(part.time <= station.rollback_left, || {
            format!(
                "longer than the rollback time left, {}",
                station.rollback_left
            )
        });
    }
    // "A job once in rollback never runs normally again."
    hold_true(!station.in_rollback, || {
        "its job is in rollback".to_string()
    })?;
    hold_true(part.time <= station.run_left, || {
        format!("longer than the run time left, {}", station.run_left)
    })?;
    // "No normal part starts while another job holds what its job asks for."
    if let Some(request) = &station.request {
        for (number, other) in machine.stations.iter().enumerate() {
            hold_true(number == part.job || !other.holds(request.resource), || {
                format!(
                    "job {number} holds r{}, which it asks for",
                    request.resource
                )
            })?;
        }
    }
    Ok(())
}

/// The sentences about the machine between parts.
fn standing(machine: &Machine, resources: usize) -> Result<(), String> {
    // "Nothing has two holders."
    for resource in 0..resources {
        let holders = machine.holders(resource);
        hold_true(holders.len() <= 1, || {
            format!("r{resource} is held by {holders:?}")
        })?;
    }
    // "No finished job holds."
    for (number, station) in machine.stations.iter().enumerate() {
        hold_true(!station.finished() || station.holds.is_empty(), || {
            format!("job {number} is finished and holds {:?}", station.holds)
        })?;
    }
    Ok(())
}

/// Writes down what a part gives to its job, before the machine follows it.
fn note(given: &mut Given, station: &Station, part: &Part) {
    if part.rollback {
        given.rollback += part.time;
    } else {
        given.run += part.time;
        if let Some(request) = &station.request {
            given.granted += request.rollback;
        }
    }
}

/// "For each job, run time given plus run time left is what it began with; so
/// for rollback time where rollback stays possible, counting what a granted
/// request adds."
fn times_add_up(jobs: &[Job], machine: &Machine, given: &[Given]) -> Result<(), String> {
    for number in 0..jobs.len() {
        let (began, ended, given) = (&jobs[number], &machine.stations[number], &given[number]);
        hold_true(given.run + ended.run_left == began.run, || {
            format!("job {number}: the run times don't add up")
        })?;
        if ended.rollback_left != NEVER {
            let sum = given.rollback + ended.rollback_left;
            hold_true(sum == began.rollback + given.granted, || {
                format!("job {number}: the rollback times don't add up")
            })?;
        }
    }
    Ok(())
}

/// "No job left has a candidate group worth more than zero" (02, R-7).
fn nothing_left_to_gain(machine: &Machine) -> Result<(), String> {
    let jobs = machine.jobs();
    for last in 0..jobs.len() {
        if machine.stations[last].finished() {
            continue;
        }
        let Some(group) = rounds::group(&jobs, machine.clock, last) else {
            return Err(format!("at the end job {last} waits in a circle"));
        };
        // A group without a utility is no candidate, whatever else it would earn.
        if let Some(utility) = group.gain.utility {
            hold_true(utility <= 0, || {
                format!("at the end job {last} has a candidate group worth {utility}")
            })?;
        }
    }
    Ok(())
}

fn hold_true(sentence: bool, fault: impl FnOnce() -> String) -> Result<(), String> {
    if sentence {
        Ok(())
    } else {
        Err(fault())
    }
}
