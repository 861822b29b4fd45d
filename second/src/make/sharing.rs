//! Who holds and requests what in a made book.

use super::dice::Dice;
use super::numbers::{time, Scale};
use crate::book::{Claim, Job, MOST_ROLLBACK, MOST_RUN, NEVER};

#[derive(Clone, Copy, PartialEq, Eq)]
pub enum Sharing {
    /// No request; some jobs hold something all the same.
    Apart,
    Random,
    /// Each job requests what the one before holds.
    Chain,
    /// Each job requests what some earlier one holds.
    Tree,
    /// Circles of one, two and many, with others waiting behind them.
    Circles,
    /// A few long jobs hold much, and the others wait for it: jobs run in
    /// several parts, are granted something in between and may turn back.
    Hubs,
}

/// One book's resources and jobs while they are given out.
struct Share<'a> {
    dice: &'a mut Dice,
    scale: Scale,
    jobs: &'a mut [Job],
    /// The jobs in the order in which they get something.
    order: Vec<usize>,
    /// The resources that no job holds yet.
    free: Vec<usize>,
    /// What is held for others to request.
    handed: Vec<usize>,
}

/// Gives out resources and requests.
pub fn share(dice: &mut Dice, scale: Scale, sharing: Sharing, resources: usize, jobs: &mut [Job]) {
    if resources == 0 || jobs.is_empty() {
        return;
    }
    let mut free: Vec<usize> = (0..resources).collect();
    dice.shuffle(&mut free);
    let mut order: Vec<usize> = (0..jobs.len()).collect();
    dice.shuffle(&mut order);
    let mut share = Share {
        dice,
        scale,
        jobs,
        order,
        free,
        handed: Vec::new(),
    };
    match sharing {
        Sharing::Apart => {}
        Sharing::Random => share.random(resources),
        Sharing::Chain => share.chain(true),
        Sharing::Tree => share.chain(false),
        Sharing::Circles => share.circles(),
        Sharing::Hubs => share.hubs(),
    }
    share.more();
}

impl Share<'_> {
    fn random(&mut self, resources: usize) {
        let held_percent = self.dice.pick(&[20, 70, 100]);
        for resource in std::mem::take(&mut self.free) {
            if self.dice.chance(held_percent) {
                let number = self.dice.below(self.jobs.len());
                self.hold(number, resource);
            }
        }
        let request_percent = self.dice.pick(&[20, 60, 100]);
        for number in 0..self.jobs.len() {
            if self.dice.chance(request_percent) {
                let resource = self.dice.below(resources);
                self.request(number, resource);
            }
        }
    }

    fn chain(&mut self, straight: bool) {
        for number in self.order.clone() {
            if straight && !self.handed.is_empty() {
                self.request(number, self.handed[self.handed.len() - 1]);
            } else {
                self.request_handed(number);
            }
            self.hold_free(number);
        }
        // The head of a chain may ask for something free.
        if !self.free.is_empty() && self.dice.chance(50) {
            let resource = self.dice.pick(&self.free);
            self.request(self.order[0], resource);
        }
    }

    fn circles(&mut self) {
        let sizes: &[usize] = self
            .dice
            .pick(&[&[1][..], &[2], &[1, 2], &[1, 1, 2, 2, 3, 5, 32]]);
        let behind_percent = self.dice.pick(&[0, 35, 35]);
        let mut at = 0;
        while at < self.order.len() {
            let size = self
                .dice
                .pick(sizes)
                .min(self.order.len() - at)
                .min(self.free.len());
            if size == 0 || (at > 0 && self.dice.chance(behind_percent)) {
                // One that waits behind a circle.
                let number = self.order[at];
                self.request_handed(number);
                self.hold_free(number);
                at += 1;
                continue;
            }
            let ring = self.free.split_off(self.free.len() - size);
            for step in 0..size {
                let number = self.order[at + step];
                self.hold(number, ring[step]);
                self.request(number, ring[(step + 1) % size]);
            }
            self.handed.extend(ring);
            at += size;
        }
    }

    fn hubs(&mut self) {
        let hubs = self.dice.pick(&[1, 1, 2, 3]).min(self.order.len());
        for at in 0..hubs {
            let number = self.order[at];
            let run = self.jobs[number].run * self.dice.between(1, 6);
            self.jobs[number].run = run.min(MOST_RUN);
            // A hub asks for something that stays free, or for an earlier
            // hub's.
            if self.dice.chance(50) {
                self.request_handed(number);
            } else if let (Some(resource), true) = (self.free.pop(), self.dice.chance(80)) {
                self.request(number, resource);
            }
            for _ in 0..self.dice.between(1, 6) {
                self.hold_free(number);
            }
        }
        for at in hubs..self.order.len() {
            let number = self.order[at];
            self.request_handed(number);
            if self.dice.chance(20) {
                self.hold_free(number);
            }
        }
    }

    /// Some hold more than the shape needs.
    fn more(&mut self) {
        let percent = self.dice.pick(&[0, 30, 80]);
        for resource in std::mem::take(&mut self.free) {
            if self.dice.chance(percent) {
                let number = self.dice.below(self.jobs.len());
                self.hold(number, resource);
            }
        }
    }

    /// Lets a job request something handed, if there is any.
    fn request_handed(&mut self, number: usize) {
        if !self.handed.is_empty() {
            let resource = self.dice.pick(&self.handed);
            self.request(number, resource);
        }
    }

    /// Lets a job hold something free for others to request.
    fn hold_free(&mut self, number: usize) {
        if let Some(resource) = self.free.pop() {
            self.hold(number, resource);
            self.handed.push(resource);
        }
    }

    /// Lets a job hold a resource, often for all its run or rollback time.
    fn hold(&mut self, number: usize, resource: usize) {
        let job = &mut self.jobs[number];
        let hold = up_to(self.dice, job.run);
        let rollback = if job.rollback == NEVER {
            NEVER
        } else {
            up_to(self.dice, job.rollback)
        };
        let place = self.dice.below(job.held.len() + 1);
        job.held.insert(
            place,
            Claim {
                resource,
                hold,
                rollback,
            },
        );
    }

    /// Lets a job request a resource, unless it is in rollback.
    fn request(&mut self, number: usize, resource: usize) {
        let job = &mut self.jobs[number];
        if job.in_rollback {
            return;
        }
        let hold = up_to(self.dice, job.run);
        let never_percent = if job.rollback == NEVER { 50 } else { 8 };
        let rollback = if self.dice.chance(never_percent) {
            NEVER
        } else {
            time(self.dice, self.scale, MOST_ROLLBACK)
        };
        job.request = Some(Claim {
            resource,
            hold,
            rollback,
        });
    }
}

fn up_to(dice: &mut Dice, most: i64) -> i64 {
    match dice.between(0, 9) {
        0..=2 => most,
        3 => 1,
        _ => dice.between(1, most),
    }
}
