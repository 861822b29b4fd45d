//! A row of made books for each seed.

use second::make::{self, Dice};

pub struct Made {
    /// Its place in the row.
    pub at: u64,
    pub kind: &'static str,
    /// Its own seed, with which `second::make` makes it.
    pub seed: u64,
    pub book: Vec<u8>,
}

/// The book at a place of a seed's row: seven in ten valid, two damaged, one
/// noise. The row begins at a number drawn from the seed, so that the rows of
/// two seeds that stand side by side have no book in common.
pub fn made(seed: u64, at: u64) -> Made {
    let seed = Dice::new(seed).roll().wrapping_add(at);
    let (kind, book) = match at % 10 {
        0..=6 => ("valid", make::valid(seed)),
        7..=8 => ("damaged", make::damaged(seed)),
        _ => ("noise", make::noise(seed)),
    };
    Made {
        at,
        kind,
        seed,
        book,
    }
}
