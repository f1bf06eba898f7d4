//! The outcome of a text: its least solution or its refusal, from which the
//! sheet, the reach sheet and the word sheet are written.

use crate::labels::Labels;
use crate::plan::Head;
use crate::reading::{read, Refusal};
use crate::solving::{solve, Solution};

/// A plan's head and labels, its least solution and the count of rounds that led
/// to it.
#[derive(Clone, Debug, PartialEq, Eq)]
pub struct Solved {
    pub head: Head,
    pub labels: Labels,
    pub solution: Solution,
    pub count: u16,
}

/// What a text comes to: it is solved, or refused (1 to 14, or 16 to 18).
pub type Outcome = Result<Solved, Refusal>;

/// The outcome of a text under an allowance of rounds.
pub fn outcome(text: &[u8], allowance: u16) -> Outcome {
    let plan = read(text)?;
    let (solution, count) = solve(&plan, allowance).ok_or(Refusal {
        number: 14,
        line: 0,
    })?;
    Ok(Solved {
        head: plan.head,
        labels: plan.labels,
        solution,
        count,
    })
}
