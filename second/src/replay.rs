//! The replay machine of demand 3.
//!
//! The machine follows any list of parts and checks none. It has its own code
//! for what a part does, apart from the planner's in `rounds`, so that a slip
//! there does not repeat itself here.

use crate::book::{Claim, Curve, Job, NEVER};
use crate::plan::Part;
use crate::worth::worth;

/// One job as the machine knows it.
#[derive(Clone, Debug)]
pub struct Station {
    pub in_rollback: bool,
    pub run_left: i64,
    /// Rollback time left, or `NEVER`.
    pub rollback_left: i64,
    pub request: Option<Claim>,
    /// "Each job has its own list of holds in it."
    pub holds: Vec<Claim>,
    pub curve: Curve,
}

impl Station {
    /// At zero in either time the job is finished.
    pub fn finished(&self) -> bool {
        self.run_left == 0 || self.rollback_left == 0
    }

    pub fn holds(&self, resource: usize) -> bool {
        self.holds.iter().any(|claim| claim.resource == resource)
    }
}

/// "A bare machine that knows only the clock, times left, requests, holders
/// and curves."
#[derive(Clone, Debug)]
pub struct Machine {
    pub clock: i64,
    pub stations: Vec<Station>,
    /// What it has paid at normal finishes.
    pub paid: i64,
}

impl Machine {
    /// The machine at a book's now, with the victims in rollback and without
    /// their requests. A victim that is no job of the book is passed over.
    pub fn begin(now: i64, jobs: &[Job], victims: &[usize]) -> Machine {
        let mut stations: Vec<Station> = jobs.iter().map(station).collect();
        for &victim in victims {
            if let Some(station) = stations.get_mut(victim) {
                station.in_rollback = true;
                station.request = None;
            }
        }
        Machine {
            clock: now,
            stations,
            paid: 0,
        }
    }

    /// Follows one part and checks nothing. Time passes for any part; a part
    /// of a job that is not there does nothing else.
    ///
    /// It gives what the part earned: the worth at a normal finish, or none where
    /// that lies outside the curve, for which nothing is paid. A part that
    /// finishes nothing earns 0, and so does a rollback, at any time (02, R-7).
    pub fn follow(&mut self, part: &Part) -> Option<i64> {
        self.clock += part.time;
        let Some(station) = self.stations.get_mut(part.job) else {
            return Some(0);
        };
        if part.rollback {
            station.roll_back(part.time);
            return Some(0);
        }
        let had_run_left = station.run_left > 0;
        station.run(part.time);
        if !had_run_left || station.run_left > 0 {
            return Some(0);
        }
        let earned = worth(&station.curve, self.clock);
        self.paid += earned.unwrap_or(0);
        earned
    }

    /// The jobs that hold a resource, one entry for each hold.
    pub fn holders(&self, resource: usize) -> Vec<usize> {
        let mut holders = Vec::new();
        for (number, station) in self.stations.iter().enumerate() {
            for claim in &station.holds {
                if claim.resource == resource {
                    holders.push(number);
                }
            }
        }
        holders
    }

    /// The machine's jobs as job records, for the question what a group is
    /// worth.
    pub fn jobs(&self) -> Vec<Job> {
        let as_job = |station: &Station| Job {
            in_rollback: station.in_rollback,
            run: station.run_left,
            rollback: station.rollback_left,
            request: station.request.clone(),
            held: station.holds.clone(),
            curve: station.curve.clone(),
        };
        self.stations.iter().map(as_job).collect()
    }
}

fn station(job: &Job) -> Station {
    Station {
        in_rollback: job.in_rollback,
        run_left: job.run,
        rollback_left: job.rollback,
        request: job.request.clone(),
        holds: job.held.clone(),
        curve: job.curve.clone(),
    }
}

impl Station {
    /// A normal part: first the grant, "without asking who else holds it",
    /// then the time is taken from run time and holds.
    fn run(&mut self, time: i64) {
        if let Some(request) = self.request.take() {
            let never = self.rollback_left == NEVER || request.rollback == NEVER;
            let added = |old: i64| if never { NEVER } else { old + request.rollback };
            self.rollback_left = added(self.rollback_left);
            for claim in &mut self.holds {
                claim.rollback = added(claim.rollback);
            }
            let own = if never { NEVER } else { request.rollback };
            self.holds.push(Claim {
                rollback: own,
                ..request
            });
        }
        self.run_left = (self.run_left - time).max(0);
        let mut kept = Vec::new();
        for mut claim in std::mem::take(&mut self.holds) {
            claim.hold = (claim.hold - time).max(0);
            if claim.hold != 0 {
                kept.push(claim);
            }
        }
        self.holds = kept;
    }

    /// A rollback part: into rollback, the request dropped, then the time is
    /// taken from the job's and the held rollback times. The never mark is no
    /// time, so nothing is taken from it.
    fn roll_back(&mut self, time: i64) {
        self.in_rollback = true;
        self.request = None;
        let less = |left: i64| {
            if left == NEVER {
                NEVER
            } else {
                (left - time).max(0)
            }
        };
        self.rollback_left = less(self.rollback_left);
        let mut kept = Vec::new();
        for mut claim in std::mem::take(&mut self.holds) {
            claim.rollback = less(claim.rollback);
            if claim.rollback != 0 {
                kept.push(claim);
            }
        }
        self.holds = kept;
    }
}
