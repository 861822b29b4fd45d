//! Wait circles and jobs in rollback (R-8 of 02).

mod common;
use common::{book, job};
use second::book::{read, Job};
use second::circles::{circles, send_back, victims};
use second::make::{damaged, valid};

/// Two jobs, each waiting for what the other holds: the first is worth 5 in
/// each millisecond that it runs, the second 2.
fn ring() -> Vec<u8> {
    book(2)
        .job(job(10, 50).rollback(3).holds(0, 10, 3).requests(1, 4, 1))
        .job(job(10, 20).rollback(3).holds(1, 10, 3).requests(0, 4, 1))
        .bytes()
}

#[test]
fn the_line_of_01_stays_here() {
    let mut ring = read(&ring()).unwrap();
    assert_eq!(victims(ring.now, &ring.jobs), Ok(vec![1]));
    // No book has such a job: it is in rollback and asks for something. By 01's
    // line its loss is 0, which is less than 2.
    ring.jobs[0].in_rollback = true;
    assert_eq!(victims(ring.now, &ring.jobs), Ok(vec![0]));
}

/// Asserts that no member of a circle is in rollback, and says whether there
/// was something to look at: a circle, and beside it a job in rollback.
fn looked_at(jobs: &[Job]) -> bool {
    let members = circles(jobs).concat();
    assert!(members.iter().all(|&member| !jobs[member].in_rollback));
    !members.is_empty() && jobs.iter().any(|job| job.in_rollback)
}

#[test]
fn no_member_of_a_circle_is_in_rollback_also_after_earlier_victims() {
    let (mut before, mut after) = (0, 0);
    for seed in 0..10_000 {
        // Damage flips modes too, and some damaged books are accepted.
        for bytes in [valid(seed), damaged(seed)] {
            let Ok(mut book) = read(&bytes) else { continue };
            before += usize::from(looked_at(&book.jobs));
            // Of a knotted book only its start is looked at.
            for victim in victims(book.now, &book.jobs).unwrap_or_default() {
                send_back(&mut book.jobs, &[victim]);
                after += usize::from(looked_at(&book.jobs));
            }
        }
    }
    assert!(before > 300 && after > 1_000, "{before} and {after}");
}
