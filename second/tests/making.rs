//! The maker of books keeps what it promises.

use second::book::{read, Job, NEVER};
use second::circles::settle;
use second::make::{damaged, noise, valid};
use second::plan;
use second::rounds::choice::{course, earned};
use second::rounds::{after, chain, group, round, Gain};

#[test]
fn the_same_seed_gives_the_same_book() {
    for seed in [0, 1, 77, u64::MAX] {
        assert_eq!(valid(seed), valid(seed));
        assert_eq!(damaged(seed), damaged(seed));
        assert_eq!(noise(seed), noise(seed));
    }
    assert_ne!(valid(1), valid(2));
}

#[test]
fn valid_books_are_read() {
    for seed in 0..5_000 {
        assert!(
            read(&valid(seed)).is_ok(),
            "seed {seed}: {:?}",
            read(&valid(seed))
        );
    }
}

#[test]
fn valid_books_come_in_many_shapes() {
    let mut jobs_met = [false; 33];
    let mut resources_met = [false; 33];
    let mut longest_circle = 0;
    let mut circles_of_one = 0;
    let mut rollback_jobs = 0;
    let mut knots = 0;
    let mut longest_chain = 0;
    for seed in 0..5_000 {
        let bytes = valid(seed);
        let book = read(&bytes).unwrap();
        jobs_met[book.jobs.len()] = true;
        resources_met[book.resources] = true;
        for circle in second::circles::circles(&book.jobs) {
            longest_circle = longest_circle.max(circle.len());
            circles_of_one += usize::from(circle.len() == 1);
        }
        for number in 0..book.jobs.len() {
            rollback_jobs += usize::from(book.jobs[number].in_rollback);
            let length = chain(&book.jobs, number).map_or(0, |chain| chain.len());
            longest_chain = longest_chain.max(length);
        }
        knots += usize::from(plan(&bytes).is_err());
    }
    assert!(jobs_met[0] && jobs_met[1] && jobs_met[31] && jobs_met[32]);
    assert!(resources_met.iter().all(|&met| met));
    assert!(longest_circle >= 31, "{longest_circle}");
    assert!(longest_chain >= 31, "{longest_chain}");
    assert!(circles_of_one > 100 && rollback_jobs > 100 && knots > 50);
}

#[test]
fn damage_and_noise_meet_every_refusal_of_the_book() {
    let mut met = [0; 11];
    for seed in 0..10_000 {
        for bytes in [damaged(seed), noise(seed)] {
            if let Err(refusal) = plan(&bytes) {
                met[usize::from(refusal.number)] += 1;
            }
        }
    }
    assert_eq!(met[1], 0, "ROOM is no matter of the book");
    assert!(met[2..].iter().all(|&count| count > 10), "{met:?}");
}

/// What of R-7 of 02 a book reaches in some group of some round.
#[derive(Default)]
struct Outside {
    /// A group that is no candidate, and one that is none for a finish before
    /// its last.
    lost: bool,
    lost_before_the_last: bool,
    /// A choice of mode in which one course has none, or both.
    normal_has_none: bool,
    rollback_has_none: bool,
    both_have_none: bool,
}

impl Outside {
    fn look(&mut self, jobs: &[Job], moment: i64, last: usize) {
        let chain = chain(jobs, last).expect("the circles are settled");
        let group = group(jobs, moment, last).expect("the circles are settled");
        self.lost |= group.gain.utility.is_none();
        let mut so_far = Gain::NOTHING_YET;
        for (at, part) in group.parts.iter().enumerate().take(chain.len() - 1) {
            let job = &jobs[part.job];
            if !job.in_rollback && job.rollback != NEVER {
                let [normal, back] =
                    [false, true].map(|mode| course(jobs, &chain, at, moment, so_far, mode));
                match (normal.utility, back.utility) {
                    (None, Some(_)) => self.normal_has_none = true,
                    (Some(_), None) => self.rollback_has_none = true,
                    (None, None) => self.both_have_none = true,
                    (Some(_), Some(_)) => {}
                }
            }
            let end = moment + so_far.time + part.time;
            so_far = so_far.and(part.time, earned(job, part.rollback, part.time, end));
        }
        self.lost_before_the_last |= so_far.utility.is_none();
    }
}

/// Over all rounds of a book; none for one that is refused.
fn outside(bytes: &[u8]) -> Option<Outside> {
    let settled = settle(read(bytes).ok()?).ok()?;
    let (mut jobs, mut moment) = (settled.jobs, settled.now);
    let mut met = Outside::default();
    loop {
        for last in (0..jobs.len()).filter(|&last| jobs[last].is_left()) {
            met.look(&jobs, moment, last);
        }
        let Some(best) = round(&jobs, moment) else {
            return Some(met);
        };
        for part in &best.parts {
            jobs[part.job] = after(jobs[part.job].clone(), part);
        }
        moment += best.gain.time;
    }
}

#[test]
fn many_valid_books_reach_what_lies_outside_a_curve() {
    let mut accepted = 0;
    let mut sums = [0; 5];
    for met in (0..5_000).filter_map(|seed| outside(&valid(seed))) {
        accepted += 1;
        let reached = [
            met.lost,
            met.lost_before_the_last,
            met.normal_has_none,
            met.rollback_has_none,
            met.both_have_none,
        ];
        for (sum, reached) in sums.iter_mut().zip(reached) {
            *sum += usize::from(reached);
        }
    }
    let percent = sums.map(|sum| 100 * sum / accepted);
    let [lost, lost_before, normal, rollback, both] = percent;
    assert!(lost >= 40 && lost_before >= 10, "{percent:?}");
    assert!(normal >= 10 && rollback >= 4 && both >= 20, "{percent:?}");
}
