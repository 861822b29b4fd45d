//! The proved planner's plan, read back from its bytes, and demand 3 for it.

use crate::decode::decode;
use crate::difference::Difference;
use second::Plan;

/// The plan in the proved planner's own bytes.
pub fn plan_of(output: &[u8]) -> Result<Plan, Difference> {
    match decode(output) {
        Ok((plan, _)) => Ok(plan),
        Err(fault) => Err(Difference {
            question: "reading the answer back".to_string(),
            second: "gave the same bytes".to_string(),
            proved: fault,
        }),
    }
}

/// Demand 3 on the second planner's machine.
pub fn replayed(book: &[u8], plan: &Plan) -> Result<(), Difference> {
    second::check_demand3(book, plan).map_err(|fault| Difference {
        question: "demand 3".to_string(),
        second: "gave the same plan".to_string(),
        proved: format!("{fault} in {plan:?}"),
    })
}
