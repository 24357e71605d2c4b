//! Linear: the least sum exceeds the bound.

use crate::fault::{Fault, Slip};
use crate::sets::Sets;
use tables::Term;

pub fn conflicts(bound: i32, terms: &[Term], sets: &Sets, slip: Slip) -> bool {
    let Some(least) = least_sum(terms, sets, slip) else {
        return true; // only a fault looks at a row while a set is empty
    };
    let least = if slip == Some(Fault::LinearWraps) {
        least as i32 as i64
    } else {
        least
    };
    least > bound as i64 || (slip == Some(Fault::LinearAtBound) && least == bound as i64)
}

fn least_sum(terms: &[Term], sets: &Sets, slip: Slip) -> Option<i64> {
    terms.iter().map(|term| least(term, sets, slip)).sum()
}

/// The least that one term can add: its own, whatever the other terms take.
fn least(term: &Term, sets: &Sets, slip: Slip) -> Option<i64> {
    let set = sets.of(term.variable);
    let largest = term.coefficient < 0 && slip != Some(Fault::SmallestForNegative);
    let value = if largest { set.last() } else { set.first() };
    value.map(|&value| term.coefficient as i64 * value as i64)
}
