//! All-different: fewer values than variables, over the variables that occur in the fact.

use crate::fault::{Fault, Slip};
use crate::sets::Sets;
use std::collections::BTreeSet;
use tables::Fact;

pub fn conflicts(variables: &[usize], fact: &Fact, sets: &Sets, slip: Slip) -> bool {
    let taken: Vec<usize> = variables
        .iter()
        .copied()
        .filter(|&variable| occurs(variable, fact, slip))
        .collect();
    // a set with more values than there are variables decides alone
    if taken.iter().any(|&v| sets.of(v).len() > taken.len()) {
        return false;
    }
    let mut union = BTreeSet::new();
    for &variable in &taken {
        union.extend(values(sets.of(variable), slip));
    }
    let tight = (slip == Some(Fault::AllDifferentTight)) as usize;
    union.len() < taken.len() + tight
}

fn occurs(variable: usize, fact: &Fact, slip: Slip) -> bool {
    let mut premises = fact.premises.iter();
    let in_premise = premises.any(|premise| premise.variable == variable);
    let in_consequent = fact.consequent.is_some_and(|c| c.variable == variable);
    match slip {
        Some(Fault::AllDifferentOverAll) => true,
        Some(Fault::AllDifferentPremisesOnly) => in_premise,
        _ => in_premise || in_consequent,
    }
}

fn values(set: &[i32], slip: Slip) -> Vec<i32> {
    match (set.first(), set.last()) {
        (Some(&low), Some(&high)) if slip == Some(Fault::AllDifferentByIntervals) => {
            (low..=high).collect()
        }
        _ => set.to_vec(),
    }
}
