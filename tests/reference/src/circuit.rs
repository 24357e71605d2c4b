//! Circuit: some positions, neither none nor all, that no value left leads out of.

use crate::fault::{Fault, Slip};
use crate::sets::Sets;

pub fn conflicts(variables: &[usize], sets: &Sets, slip: Slip) -> bool {
    let n = variables.len();
    let leads_to: Vec<u32> = variables
        .iter()
        .map(|&variable| named(sets.of(variable), n, slip))
        .collect();
    let all = (1u32 << n) - 1;
    let last = if slip == Some(Fault::FullCycleIsSubcycle) {
        all
    } else {
        all - 1
    };
    if slip == Some(Fault::CircuitOnlyFixed) {
        return (1..=last).any(|set| closed(set, &leads_to) && fixed(set, variables, sets));
    }
    (1..=last).any(|set| closed(set, &leads_to))
}

/// The positions that the values name, one bit for each; values outside 0..n-1 name none.
fn named(values: &[i32], n: usize, slip: Slip) -> u32 {
    let first = (slip == Some(Fault::CircuitFromOne)) as i32;
    let mut bits = 0;
    for &value in values {
        let position = value - first;
        if 0 <= position && position < n as i32 {
            bits |= 1 << position;
        } else if slip == Some(Fault::CircuitOutsideLeaves) {
            bits |= 1 << n;
        }
    }
    bits
}

/// Whether every value left at the members of the set names a member.
fn closed(set: u32, leads_to: &[u32]) -> bool {
    let members = (0..leads_to.len()).filter(|position| set >> position & 1 == 1);
    members
        .into_iter()
        .all(|position| leads_to[position] & !set == 0)
}

fn fixed(set: u32, variables: &[usize], sets: &Sets) -> bool {
    let mut members = (0..variables.len()).filter(|position| set >> position & 1 == 1);
    members.all(|position| sets.of(variables[position]).len() == 1)
}
