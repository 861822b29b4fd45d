//! From an answer's bytes back to a plan.

use second::{Part, Plan};

/// The plan that stands at the start of `bytes`, with its length; or what is
/// wrong with it, in words. Every byte is looked at: a mode is 0 or 1, and the
/// length field is the length.
pub fn decode(bytes: &[u8]) -> Result<(Plan, usize), String> {
    let mut reader = Reader { bytes, place: 0 };
    let length = reader.number(2)? as usize;
    let version = reader.number(1)?;
    if version != 1 {
        return Err(format!("version {version}"));
    }
    let mut victims = Vec::new();
    for _ in 0..reader.number(1)? {
        victims.push(reader.number(1)? as usize);
    }
    let mut parts = Vec::new();
    for _ in 0..reader.number(1)? {
        let job = reader.number(1)? as usize;
        let rollback = match reader.number(1)? {
            0 => false,
            1 => true,
            mode => return Err(format!("mode {mode}")),
        };
        let time = i64::from(reader.number(2)?);
        parts.push(Part {
            job,
            rollback,
            time,
        });
    }
    let rounds = reader.number(1)? as usize;
    // The same 4 bytes read as a number in two's complement.
    let total = i64::from(reader.number(4)? as i32);
    let end = i64::from(reader.number(4)?);
    if length != reader.place {
        return Err(format!(
            "the length field says {length}, the fields take {}",
            reader.place
        ));
    }
    let plan = Plan {
        victims,
        parts,
        rounds,
        total,
        end,
    };
    Ok((plan, length))
}

struct Reader<'a> {
    bytes: &'a [u8],
    place: usize,
}

impl Reader<'_> {
    /// The next big-endian number of at most 4 bytes.
    fn number(&mut self, width: usize) -> Result<u32, String> {
        let field = self
            .bytes
            .get(self.place..self.place + width)
            .ok_or_else(|| format!("the answer stops at {}", self.place))?;
        self.place += width;
        Ok(field
            .iter()
            .fold(0, |sum, &byte| sum * 256 + u32::from(byte)))
    }
}
