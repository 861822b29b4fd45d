//! What a part does to the book.

use super::book::{Book, NEVER, NONE};

impl Book {
    pub fn run_part(&mut self, job: usize, time: u32) {
        self.grant(job);
        self.run[job] = self.run[job].saturating_sub(time);
        let mut left = self.held[job];
        while left != 0 {
            let at = left.trailing_zeros() as usize;
            left &= left - 1;
            self.hold[at] = self.hold[at].saturating_sub(time);
            if self.hold[at] == 0 {
                self.free(job, at);
            }
        }
    }

    pub fn rollback_part(&mut self, job: usize, time: u32) {
        self.rolling[job] = true;
        self.request[job] = NONE;
        self.back[job] = self.back[job].saturating_sub(time);
        let mut left = self.held[job];
        while left != 0 {
            let at = left.trailing_zeros() as usize;
            left &= left - 1;
            self.hold_back[at] = self.hold_back[at].saturating_sub(time);
            if self.hold_back[at] == 0 {
                self.free(job, at);
            }
        }
    }

    fn grant(&mut self, job: usize) {
        if self.request[job] == NONE {
            return;
        }
        let new = usize::from(self.request[job]);
        let added = self.request_back[job];
        let never = self.back[job] == NEVER || added == NEVER;
        self.back[job] = if never { NEVER } else { self.back[job] + added };
        let mut left = self.held[job];
        while left != 0 {
            let at = left.trailing_zeros() as usize;
            left &= left - 1;
            self.hold_back[at] = if never {
                NEVER
            } else {
                self.hold_back[at] + added
            };
        }
        self.request[job] = NONE;
        self.holder[new] = job as u8;
        self.hold[new] = self.request_hold[job];
        self.hold_back[new] = if never { NEVER } else { added };
        self.held[job] |= 1 << new;
    }

    fn free(&mut self, job: usize, resource: usize) {
        self.holder[resource] = NONE;
        self.held[job] &= !(1 << resource);
    }

    /// A job is left while neither of its times is at zero.
    pub fn is_left(&self, job: usize) -> bool {
        self.run[job] != 0 && self.back[job] != 0
    }
}
