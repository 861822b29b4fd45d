//! An independent second planner for the job book of paper 01.
//!
//! It follows the Generic Utility Scheduling algorithm of source document
//! 000 (algorithms V.1 and VI.1 to VI.5) under the rulings of 01, in the most
//! obvious way and without regard to speed. In the comments "01" and "000"
//! name those two papers, and "02" the one of later requests.

pub mod answer;
pub mod book;
pub mod circles;
pub mod curve_worth;
pub mod demand3;
pub mod first;
pub mod listing;
pub mod make;
pub mod plan;
pub mod record;
pub mod refusal;
pub mod replay;
pub mod rounds;
pub mod worth;

pub use answer::answer;
pub use curve_worth::curve_worth;
pub use demand3::check_demand3;
pub use first::first;
pub use listing::{first_listing, listing};
pub use plan::{plan, Part, Plan};
pub use record::record;
pub use refusal::Refusal;
