//! Judging a conclusion: the cited fact has no premises and says what is claimed.

use crate::fault::{Fault, Slip};
use tables::{Fact, Relation};

/// Whether the fact says "no assignment".
pub fn fits_no_assignment(fact: &Fact, slip: Slip) -> bool {
    let free = fact.premises.is_empty() || slip == Some(Fault::ConclusionPremisesForgiven);
    free && fact.consequent.is_none()
}

/// Whether the fact says that the variable is never below a value at least the claimed one.
pub fn fits_never_below(fact: &Fact, variable: usize, claimed: i32, slip: Slip) -> bool {
    if !fact.premises.is_empty() {
        return false;
    }
    let Some(consequent) = &fact.consequent else {
        return slip == Some(Fault::ClaimByFalse);
    };
    let relation = consequent.relation == Relation::AtLeast
        || (slip == Some(Fault::ClaimByEqual) && consequent.relation == Relation::Equal);
    let same = consequent.variable == variable || slip == Some(Fault::ClaimAnyVariable);
    let enough = match slip {
        Some(Fault::ClaimExact) => consequent.value == claimed,
        Some(Fault::ClaimMore) => true,
        _ => consequent.value >= claimed,
    };
    relation && same && enough
}
