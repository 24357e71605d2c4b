//! Judging an inference: the cited row must conflict with the box of the fact.

use crate::fault::{Fault, Slip};
use crate::sets::Sets;
use crate::{all_different, circuit, cumulative, linear};
use tables::{Fact, Row};

/// Passes, or is refused with 20 or 21; the position is 0 for both.
pub fn judge(declared: &Sets, row: &Row, fact: &Fact, slip: Slip) -> Result<(), u32> {
    let sets = Sets::of_fact(declared, fact);
    if slip == Some(Fault::TwentyAfterTwentyOne) && !conflicts(row, fact, &sets, slip) {
        return Err(21);
    }
    if is_empty(&sets, row, slip) {
        return if slip == Some(Fault::EmptyBoxPasses) {
            Ok(())
        } else {
            Err(20)
        };
    }
    if conflicts(row, fact, &sets, slip) {
        Ok(())
    } else {
        Err(21)
    }
}

fn is_empty(sets: &Sets, row: &Row, slip: Slip) -> bool {
    if slip == Some(Fault::TwentyOnlyInRow) {
        return row.variables().iter().any(|&v| sets.of(v).is_empty());
    }
    sets.any_empty()
}

fn conflicts(row: &Row, fact: &Fact, sets: &Sets, slip: Slip) -> bool {
    match row {
        Row::Linear { bound, terms } => linear::conflicts(*bound, terms, sets, slip),
        Row::AllDifferent { variables } => all_different::conflicts(variables, fact, sets, slip),
        Row::Cumulative {
            capacity,
            activities,
        } => cumulative::conflicts(*capacity, activities, sets, slip),
        Row::Circuit { variables } => circuit::conflicts(variables, sets, slip),
    }
}
