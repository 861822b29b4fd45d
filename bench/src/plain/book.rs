//! The book as arrays, and what a curve is worth.

pub const NEVER: u32 = 65_535;
/// No resource, no holder.
pub const NONE: u8 = 255;
pub const LAST_TIME: u32 = 2_147_483_647;

pub struct Book {
    pub now: u32,
    pub count: usize,
    /// Where each job's record begins, and where the last one ends.
    pub first: [u16; 33],

    // By job.
    pub rolling: [bool; 32],
    pub run: [u32; 32],
    pub back: [u32; 32],
    pub request: [u8; 32],
    pub request_hold: [u32; 32],
    pub request_back: [u32; 32],
    /// The resources that it holds, as bits.
    pub held: [u32; 32],
    pub curve: [Curve; 32],

    // By resource: one has at most one holder, so no job needs a list.
    pub holder: [u8; 32],
    pub hold: [u32; 32],
    pub hold_back: [u32; 32],
}

#[derive(Clone, Copy)]
pub struct Curve {
    pub count: usize,
    pub start: [u32; 8],
    pub value: [i32; 8],
    pub slope: [i32; 8],
    pub termination: u32,
}

pub const NO_CURVE: Curve = Curve {
    count: 0,
    start: [0; 8],
    value: [0; 8],
    slope: [0; 8],
    termination: 0,
};

impl Curve {
    /// The worth at a moment, or none outside the curve (R-7 of 02).
    pub fn worth(&self, moment: u32) -> Option<i64> {
        if moment > self.termination {
            return None;
        }
        for piece in (0..self.count).rev() {
            if self.start[piece] <= moment {
                return Some(self.value_in(piece, moment));
            }
        }
        None
    }

    /// The worth in a piece that starts at or before the moment.
    pub fn value_in(&self, piece: usize, moment: u32) -> i64 {
        let after = i64::from(moment - self.start[piece]);
        i64::from(self.value[piece]) + i64::from(self.slope[piece]) * after
    }
}

impl Book {
    pub fn empty() -> Book {
        Book {
            now: 0,
            count: 0,
            first: [0; 33],
            rolling: [false; 32],
            run: [0; 32],
            back: [0; 32],
            request: [NONE; 32],
            request_hold: [0; 32],
            request_back: [0; 32],
            held: [0; 32],
            curve: [NO_CURVE; 32],
            holder: [NONE; 32],
            hold: [0; 32],
            hold_back: [0; 32],
        }
    }
}
