//! What the programs that run the proved planner beside the second one share.

pub mod books;
pub mod code;
pub mod decode;
pub mod difference;
pub mod fence;
pub mod hex;
pub mod made;
pub mod printed;
pub mod proved;
pub mod replayed;
pub mod tally;
