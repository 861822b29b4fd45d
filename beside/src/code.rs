//! The numbers that the C face gives back, made from the second planner's
//! answers and put into words.

use second::refusal;
use second::{Part, Refusal};
use std::ops::Range;

/// Number x 2^32 + place.
pub fn of_refusal(refusal: Refusal) -> u64 {
    (u64::from(refusal.number) << 32) + refusal.place as u64
}

/// What the plan call must give for the second planner's verdict.
pub fn of_plan<T>(verdict: &Result<T, Refusal>) -> u64 {
    match verdict {
        Ok(_) => 0,
        Err(refusal) => of_refusal(*refusal),
    }
}

/// What the record question must give. A record is never empty, so 0 can only
/// mean that there is none.
pub fn of_record(record: Option<&Range<usize>>) -> u64 {
    match record {
        None => 0,
        Some(range) => ((range.start as u64) << 16) + range.end as u64,
    }
}

/// What the question of the first part must give. A part takes time, so 0 can
/// only mean that there is none.
pub fn of_first(first: &Result<Option<Part>, Refusal>) -> u64 {
    match first {
        Ok(None) => 0,
        Ok(Some(part)) => of_part(part),
        Err(refusal) => of_refusal(*refusal),
    }
}

/// Job, mode and time in 8, 8 and 16 bits.
fn of_part(part: &Part) -> u64 {
    let time = u16::try_from(part.time).expect("a part is at most 60,000 ms long");
    ((part.job as u64) << 24) + (u64::from(part.rollback) << 16) + u64::from(time)
}

/// What the worth call gives outside the curve (02, R-7). No worth has these bits.
pub const WORTH_NONE: u64 = 1 << 31;

/// What the worth call must give: the worth as the 32 bits of two's complement, or
/// 2^31 where there is none.
pub fn of_worth(worth: &Result<Option<i64>, Refusal>) -> u64 {
    match worth {
        Ok(None) => WORTH_NONE,
        Ok(Some(worth)) => {
            let worth = i32::try_from(*worth).expect("a worth is at most 1,000,000 from zero");
            u64::from(worth as u32)
        }
        Err(refusal) => of_refusal(*refusal),
    }
}

/// A plan call's number in words.
pub fn plan_in_words(code: u64) -> String {
    match code {
        0 => "accepted".to_string(),
        _ => refused_in_words(code),
    }
}

/// A record question's number in words. Start and end stay far below 2^16, so
/// from 2^32 on it is a refusal.
pub fn record_in_words(code: u64) -> String {
    match code {
        0 => "no such job".to_string(),
        1..=0xFFFF_FFFF => format!("record from {} to {}", code >> 16, code & 0xFFFF),
        _ => refused_in_words(code),
    }
}

/// The number of the question of the first part in words.
pub fn first_in_words(code: u64) -> String {
    let (job, mode, time) = (code >> 24, code >> 16 & 0xFF, code & 0xFFFF);
    match code {
        0 => "nothing".to_string(),
        1..=0xFFFF_FFFF => format!("job {job} in mode {mode} for {time} ms"),
        _ => refused_in_words(code),
    }
}

/// A worth call's number in words.
pub fn worth_in_words(code: u64) -> String {
    match u32::try_from(code) {
        _ if code == WORTH_NONE => "none".to_string(),
        Ok(bits) => format!("worth {}", bits as i32),
        Err(_) => refused_in_words(code),
    }
}

fn refused_in_words(code: u64) -> String {
    let (number, place) = (code >> 32, code & 0xFFFF_FFFF);
    let name = refusal::name(u8::try_from(number).unwrap_or(0));
    format!("refused {number} ({name}) at {place}")
}

#[cfg(test)]
mod tests {
    use super::*;

    fn part(job: usize, rollback: bool, time: i64) -> Result<Option<Part>, Refusal> {
        Ok(Some(Part {
            job,
            rollback,
            time,
        }))
    }

    #[test]
    fn a_first_part_as_a_number() {
        assert_eq!(of_first(&Ok(None)), 0);
        assert_eq!(of_first(&part(0, false, 1)), 1);
        assert_eq!(of_first(&part(1, true, 3)), 0x0101_0003);
        assert_eq!(of_first(&part(31, false, 60_000)), 0x1F00_EA60);
        let knot = Refusal::new(refusal::KNOT, 5);
        assert_eq!(of_first(&Err(knot)), 0xA_0000_0005);
    }

    #[test]
    fn a_first_part_in_words() {
        assert_eq!(first_in_words(0), "nothing");
        assert_eq!(first_in_words(0x1F01_EA60), "job 31 in mode 1 for 60000 ms");
        assert_eq!(first_in_words(0xA_0000_0005), "refused 10 (KNOT) at 5");
    }

    #[test]
    fn a_worth_as_a_number() {
        assert_eq!(of_worth(&Ok(None)), 2_147_483_648);
        assert_eq!(of_worth(&Ok(Some(0))), 0);
        assert_eq!(of_worth(&Ok(Some(1_000_000))), 0xF_4240);
        assert_eq!(of_worth(&Ok(Some(-1))), 0xFFFF_FFFF);
        assert_eq!(of_worth(&Ok(Some(-1_000_000))), 0xFFF0_BDC0);
        let tail = Refusal::new(refusal::TAIL, 15);
        assert_eq!(of_worth(&Err(tail)), 0x9_0000_000F);
        let cut = Refusal::new(refusal::CUT, 0);
        assert_eq!(of_worth(&Err(cut)), 0x5_0000_0000);
    }

    #[test]
    fn a_worth_in_words() {
        assert_eq!(worth_in_words(0), "worth 0");
        assert_eq!(worth_in_words(2_147_483_648), "none");
        assert_eq!(worth_in_words(0xF_4240), "worth 1000000");
        assert_eq!(worth_in_words(0xFFF0_BDC0), "worth -1000000");
        assert_eq!(worth_in_words(0x5_0000_0000), "refused 5 (CUT) at 0");
    }
}
