//! A conclusion for a log of random steps.

use crate::random::Random;
use tables::{Fact, Step};

/// A conclusion that fits, if there is one, or any; the claimed value is at times too large.
pub fn conclude(r: &mut Random, facts: &[Fact]) -> Step {
    let fitting: Vec<usize> = (0..facts.len())
        .filter(|&number| facts[number].premises.is_empty())
        .collect();
    let cited = if !fitting.is_empty() && r.chance(80) {
        *r.pick(&fitting)
    } else {
        r.below(facts.len())
    };
    match facts[cited].consequent {
        None => Step::NoAssignment { cited },
        Some(atom) => Step::NeverBelow {
            variable: atom.variable,
            value: atom.value - r.between(-1, 2),
            cited,
        },
    }
}
