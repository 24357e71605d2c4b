//! The plain checker: explicit lists of values, every time, every subset of positions.
//!
//! It is written to be read against the scope document and is the measure for the library.
//! `check_with` and `recheck_with` can make one deliberate mistake at a time.

mod all_different;
mod check;
mod circuit;
mod conclusion;
mod cumulative;
mod deduction;
mod fault;
mod inference;
mod linear;
mod read_model;
mod read_step;
mod run;
mod sets;
mod words;

pub use check::{check_with, recheck_with};
pub use fault::{Fault, Slip};
pub use sets::Sets;
pub use tables::Answer;
use tables::{Fact, Model, Row};

/// Checks the log against the model and writes the places of the passed steps.
pub fn check(model: &[i32], log: &[i32], places: &mut [u32]) -> Answer {
    check_with(None, model, log, places)
}

/// Checks again after an amendment, judging only what cites a changed row.
pub fn recheck(old: &[i32], new: &[i32], log: &[i32], places: &mut [u32]) -> Answer {
    recheck_with(None, old, new, log, places)
}

/// The model, or the number and the position of the refusal (1, 4 to 7).
pub fn read_model(table: &[i32]) -> Result<Model, (u32, usize)> {
    read_model::read_model(table, None)
}

/// All values within the declared bounds.
pub fn declared_sets(bounds: &[(i32, i32)]) -> Sets {
    Sets::declared(bounds, None)
}

/// Whether an inference passes; the sets are the declared ones.
pub fn judge_inference(declared: &Sets, row: &Row, fact: &Fact) -> Result<(), u32> {
    inference::judge(declared, row, fact, None)
}

/// Whether a deduction passes; the sets are the declared ones, the hints numbers of `facts`.
pub fn judge_deduction(
    declared: &Sets,
    facts: &[Fact],
    fact: &Fact,
    hints: &[usize],
) -> Result<(), (u32, usize)> {
    deduction::judge(declared, facts, fact, hints, None)
}
