//! Choosing a mode (VI.5 of 000 under 01's rulings, R-3 of 02: only work that is
//! finished is credited, and R-7: a course with none among its credits loses).

use super::book::{Book, NEVER};
use super::rounds::Waits;

/// Whether a group of `utility` in `time` is denser than one of another. Both
/// stay far below 2^31, so the products fit.
pub fn denser(utility: i64, time: u32, other: i64, other_time: u32) -> bool {
    utility * i64::from(other_time) > other * i64::from(time)
}

/// Whether the job at a place before the chain's last rolls back, the group so
/// far being worth `utility` after `time` and having no none.
pub fn rolls_back(
    book: &Book,
    waits: &Waits,
    chain: &[u8],
    moment: u32,
    time: u32,
    utility: i64,
) -> bool {
    let job = usize::from(chain[0]);
    if book.rolling[job] {
        return true;
    }
    if book.back[job] == NEVER {
        return false;
    }
    let next = usize::from(chain[1]);
    let mut normal_time = time + waits.hold[next];
    let mut normal = utility;
    let mut normal_inside = true;
    if waits.hold[next] == book.run[job] {
        match book.curve[job].worth(moment + normal_time) {
            Some(worth) => normal += worth,
            None => normal_inside = false,
        }
    }
    let mut back_time = time + waits.hold_back[next];
    let mut back = utility;
    // Both courses go through the later jobs alike, at other moments.
    for at in 1..chain.len() {
        let job = usize::from(chain[at]);
        let rolling = book.rolling[job];
        let span = match chain.get(at + 1) {
            Some(&next) if rolling => waits.hold_back[usize::from(next)],
            Some(&next) => waits.hold[usize::from(next)],
            None if rolling => book.back[job],
            None => book.run[job],
        };
        normal_time += span;
        back_time += span;
        if !rolling && span == book.run[job] {
            // With none in the rollback course normal wins, whatever else comes.
            let Some(worth) = book.curve[job].worth(moment + back_time) else {
                return false;
            };
            back += worth;
            match book.curve[job].worth(moment + normal_time) {
                Some(worth) => normal += worth,
                None => normal_inside = false,
            }
        }
    }
    !normal_inside || denser(back, back_time, normal, normal_time)
}
