//! Finding a fact that a row infers, with few premises.

use crate::random::Random;
use reference::{judge_inference, Sets};
use tables::limits::PREMISES;
use tables::{at_least, at_most, Atom, Fact, Model, Row};

/// A fact that passes as an inference on the row: premises out of the trail (and bounds that hold
/// anyway), and the given consequent.
pub fn explain(
    r: &mut Random,
    model: &Model,
    declared: &Sets,
    row: &Row,
    trail: &[Atom],
    consequent: Option<Atom>,
) -> Option<Fact> {
    let variables = row.variables();
    let on_row: Vec<Atom> = trail
        .iter()
        .copied()
        .filter(|atom| variables.contains(&atom.variable))
        .collect();
    let full = match row {
        Row::AllDifferent { .. } => crowd(r, model, declared, row, &on_row, consequent)?,
        _ => Fact::new(&on_row, consequent),
    };
    if judge_inference(declared, row, &full).is_err() {
        return None;
    }
    let fact = if r.chance(90) {
        fewer_premises(r, full, |fact| judge_inference(declared, row, fact).is_ok())
    } else {
        full
    };
    (fact.premises.len() <= PREMISES as usize).then_some(fact)
}

/// Drops premises as long as the fact still passes.
pub fn fewer_premises(r: &mut Random, mut fact: Fact, passes: impl Fn(&Fact) -> bool) -> Fact {
    r.shuffle(&mut fact.premises);
    let mut index = fact.premises.len();
    while index > 0 {
        index -= 1;
        let dropped = fact.premises.remove(index);
        if !passes(&fact) {
            fact.premises.insert(index, dropped);
        }
    }
    fact
}

/// Variables of an all-different row that have too few values together, all made to occur.
fn crowd(
    r: &mut Random,
    model: &Model,
    declared: &Sets,
    row: &Row,
    trail: &[Atom],
    consequent: Option<Atom>,
) -> Option<Fact> {
    let variables = row.variables();
    let subsets = 1usize << variables.len();
    let turn = r.below(subsets);
    for subset in 0..subsets {
        let subset = subset ^ turn;
        let chosen: Vec<usize> = (0..variables.len())
            .filter(|position| subset >> position & 1 == 1)
            .map(|position| variables[position])
            .collect();
        let fact = occurring(r, model, &chosen, trail, consequent);
        if judge_inference(declared, row, &fact).is_ok() {
            return Some(fact);
        }
    }
    None
}

/// The trail on the chosen variables, and a bound that holds anyway for each that it leaves out.
fn occurring(
    r: &mut Random,
    model: &Model,
    chosen: &[usize],
    trail: &[Atom],
    consequent: Option<Atom>,
) -> Fact {
    let mut premises = Vec::new();
    for &variable in chosen {
        let before = premises.len();
        premises.extend(trail.iter().filter(|atom| atom.variable == variable));
        let spoken_of = consequent.is_some_and(|atom| atom.variable == variable);
        if premises.len() == before && !spoken_of {
            let (low, high) = model.bounds[variable];
            premises.push(if r.chance(50) {
                at_least(variable, low)
            } else {
                at_most(variable, high)
            });
        }
    }
    Fact {
        premises,
        consequent,
    }
}
