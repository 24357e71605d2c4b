//! Judging a deduction: the hints are applied in order until the box is empty.

use crate::fault::{Fault, Slip};
use crate::sets::Sets;
use tables::Fact;

/// The number of a refusal and the index among the hints that goes with it.
pub type Refusal = (u32, usize);

/// Passes, or is refused with 20, 22 or 23.
pub fn judge(
    declared: &Sets,
    facts: &[Fact],
    fact: &Fact,
    hints: &[usize],
    slip: Slip,
) -> Result<(), Refusal> {
    let sets = Sets::of_fact(declared, fact);
    let empty = sets.any_empty();
    if slip == Some(Fault::TwentyAfterTwentyOne) {
        let applied = apply(sets, facts, hints, slip);
        return if empty && applied.is_ok() {
            Err((20, 0))
        } else {
            applied
        };
    }
    match (empty, slip) {
        (true, Some(Fault::EmptyBoxPasses)) => Ok(()),
        (true, _) => Err((20, 0)),
        (false, _) => apply(sets, facts, hints, slip),
    }
}

fn apply(mut sets: Sets, facts: &[Fact], hints: &[usize], slip: Slip) -> Result<(), Refusal> {
    let first = sets.clone();
    let mut passed = false;
    for (index, &hint) in hints.iter().enumerate() {
        let Some(cited) = facts.get(hint) else {
            return Err((12, index)); // only a fault reads such a hint
        };
        let held = if slip == Some(Fault::HintPremisesOnFirstBox) {
            &first
        } else {
            &sets
        };
        if !applies(cited, held, slip) {
            return Err((22, refused_index(index, hint, slip)));
        }
        match &cited.consequent {
            None => passed = true,
            Some(consequent) => sets.narrow(consequent),
        }
        passed = passed || sets.any_empty();
        if passed && slip != Some(Fault::HintsGoOn) {
            return Ok(());
        }
    }
    if passed || slip == Some(Fault::TwentyThreePasses) {
        Ok(())
    } else {
        Err((23, 0))
    }
}

fn applies(cited: &Fact, sets: &Sets, slip: Slip) -> bool {
    slip == Some(Fault::HintPremisesUnchecked)
        || cited.premises.iter().all(|premise| sets.satisfy(premise))
}

fn refused_index(index: usize, hint: usize, slip: Slip) -> usize {
    match slip {
        Some(Fault::HintIndexOffByOne) => index + 1,
        Some(Fault::HintNumberForIndex) => hint,
        _ => index,
    }
}
