//! Reading a book.

use super::book::{Book, Curve, LAST_TIME, NEVER, NONE, NO_CURVE};
use super::{refused, COUNT, CUT, MODE, RANGE, SIZE, TAIL, TWICE, VERSION};

impl Book {
    /// Fills an empty book, or gives the refusal's number.
    pub fn read(&mut self, bytes: &[u8]) -> Result<(), u64> {
        if bytes.len() < 9 || usize::from(bytes[0]) * 256 + usize::from(bytes[1]) != bytes.len() {
            return refused(SIZE, 0);
        }
        if bytes[2] != 1 {
            return refused(VERSION, 2);
        }
        if bytes[3] > 32 {
            return refused(COUNT, 3);
        }
        if bytes[4] > 32 {
            return refused(COUNT, 4);
        }
        self.count = usize::from(bytes[3]);
        let resources = bytes[4];
        let mut reader = Reader { bytes, place: 5 };
        self.now = reader.long()?;
        if self.now > LAST_TIME {
            return refused(RANGE, 5);
        }
        for job in 0..self.count {
            self.first[job] = reader.place as u16;
            self.read_job(&mut reader, job, resources)?;
        }
        self.first[self.count] = reader.place as u16;
        reader.all_read()
    }

    fn read_job(&mut self, reader: &mut Reader, job: usize, resources: u8) -> Result<(), u64> {
        let first = reader.place;
        let mode = reader.byte()?;
        if mode > 1 {
            return refused(RANGE, first);
        }
        let run = reader.short()?;
        if !(1..=60_000).contains(&run) {
            return refused(RANGE, first + 1);
        }
        let back = reader.short()?;
        if !a_rollback(back) {
            return refused(RANGE, first + 3);
        }
        self.rolling[job] = mode == 1;
        self.run[job] = run;
        self.back[job] = back;

        let requested = reader.byte()?;
        if requested >= resources && requested != NONE {
            return refused(RANGE, first + 5);
        }
        let hold = reader.short()?;
        if requested == NONE && hold != 0 || requested != NONE && (hold < 1 || hold > run) {
            return refused(RANGE, first + 6);
        }
        let its_back = reader.short()?;
        if requested == NONE && its_back != 0 || requested != NONE && !a_rollback(its_back) {
            return refused(RANGE, first + 8);
        }
        self.request[job] = requested;
        self.request_hold[job] = hold;
        self.request_back[job] = its_back;

        self.read_held(reader, job, resources)?;
        self.curve[job].read(reader)?;
        if mode == 1 && (requested != NONE || back == NEVER) {
            return refused(MODE, first);
        }
        Ok(())
    }

    fn read_held(&mut self, reader: &mut Reader, job: usize, resources: u8) -> Result<(), u64> {
        let (run, back) = (self.run[job], self.back[job]);
        let place = reader.place;
        let count = reader.byte()?;
        if count > 32 {
            return refused(RANGE, place);
        }
        for _ in 0..count {
            let place = reader.place;
            let resource = reader.byte()?;
            if resource >= resources {
                return refused(RANGE, place);
            }
            let at = usize::from(resource);
            if self.holder[at] != NONE {
                return refused(TWICE, place);
            }
            let hold = reader.short()?;
            if hold < 1 || hold > run {
                return refused(RANGE, place + 1);
            }
            let its_back = reader.short()?;
            let kept = if back == NEVER {
                its_back == NEVER
            } else {
                its_back >= 1 && its_back <= back
            };
            if !kept {
                return refused(RANGE, place + 3);
            }
            self.holder[at] = job as u8;
            self.hold[at] = hold;
            self.hold_back[at] = its_back;
            self.held[job] |= 1 << at;
        }
        Ok(())
    }
}

fn a_rollback(time: u32) -> bool {
    (1..=30_000).contains(&time) || time == NEVER
}

impl Curve {
    /// From bytes that are one curve and nothing else.
    pub fn alone(bytes: &[u8]) -> Result<Curve, u64> {
        let mut reader = Reader { bytes, place: 0 };
        let mut curve = NO_CURVE;
        curve.read(&mut reader)?;
        reader.all_read()?;
        Ok(curve)
    }

    fn read(&mut self, reader: &mut Reader) -> Result<(), u64> {
        let place = reader.place;
        self.count = usize::from(reader.byte()?);
        if !(1..=8).contains(&self.count) {
            return refused(RANGE, place);
        }
        for piece in 0..self.count {
            let place = reader.place;
            let start = reader.long()?;
            let good = start <= LAST_TIME
                && (piece == 0
                    || start > self.start[piece - 1] && self.ends_well(piece - 1, start - 1));
            if !good {
                return refused(RANGE, place);
            }
            let value = reader.long()? as i32;
            if !(-1_000_000..=1_000_000).contains(&value) {
                return refused(RANGE, place + 4);
            }
            let slope = i32::from(reader.short()? as u16 as i16);
            if !(-1_000..=1_000).contains(&slope) {
                return refused(RANGE, place + 8);
            }
            self.start[piece] = start;
            self.value[piece] = value;
            self.slope[piece] = slope;
        }
        let place = reader.place;
        let last = self.count - 1;
        self.termination = reader.long()?;
        let good = self.termination <= LAST_TIME
            && self.termination >= self.start[last]
            && self.ends_well(last, self.termination);
        if !good {
            return refused(RANGE, place);
        }
        Ok(())
    }

    fn ends_well(&self, piece: usize, end: u32) -> bool {
        (-1_000_000..=1_000_000).contains(&self.value_in(piece, end))
    }
}

struct Reader<'a> {
    bytes: &'a [u8],
    place: usize,
}

impl Reader<'_> {
    fn field<const WIDTH: usize>(&mut self) -> Result<[u8; WIDTH], u64> {
        match self.bytes[self.place..].first_chunk() {
            Some(field) => {
                self.place += WIDTH;
                Ok(*field)
            }
            None => refused(CUT, self.place),
        }
    }

    fn byte(&mut self) -> Result<u8, u64> {
        self.field().map(u8::from_be_bytes)
    }

    fn short(&mut self) -> Result<u32, u64> {
        self.field().map(u16::from_be_bytes).map(u32::from)
    }

    fn long(&mut self) -> Result<u32, u64> {
        self.field().map(u32::from_be_bytes)
    }

    fn all_read(&self) -> Result<(), u64> {
        if self.place < self.bytes.len() {
            return refused(TAIL, self.place);
        }
        Ok(())
    }
}
