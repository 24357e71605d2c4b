//! Damage to the meaning of a log: the words can still be read, mostly.

use crate::random::Random;
use tables::{Atom, Fact, Model, Relation, Step};

/// Changes one thing in the steps.
pub fn reshape(r: &mut Random, model: &Model, steps: &mut Vec<Step>) {
    if steps.is_empty() {
        return;
    }
    match r.below(8) {
        0 => rearrange(r, steps),
        1 => change_conclusion(r, model, steps),
        _ => {
            let index = r.below(steps.len());
            change_step(r, model, &mut steps[index]);
        }
    }
}

fn rearrange(r: &mut Random, steps: &mut Vec<Step>) {
    let (index, other) = (r.below(steps.len()), r.below(steps.len()));
    match r.below(4) {
        0 => steps.swap(index, other),
        1 => steps.insert(index, steps[other].clone()),
        2 => steps.push(steps[index].clone()),
        _ => {
            steps.remove(index);
        }
    }
}

fn change_conclusion(r: &mut Random, model: &Model, steps: &mut [Step]) {
    let number = steps.len() - 1;
    let last = &mut steps[number];
    match last {
        Step::NoAssignment { cited } | Step::NeverBelow { cited, .. } if r.chance(40) => {
            *cited = r.below(number + 2);
        }
        Step::NeverBelow { value, .. } if r.chance(60) => *value += r.between(-2, 2),
        Step::NeverBelow { variable, .. } if r.chance(50) => {
            *variable = r.below(model.bounds.len())
        }
        Step::NeverBelow { cited, .. } => *last = Step::NoAssignment { cited: *cited },
        Step::NoAssignment { cited } => {
            let variable = r.below(model.bounds.len());
            *last = Step::NeverBelow {
                variable,
                value: model.bounds[variable].0 + r.between(-1, 1),
                cited: *cited,
            };
        }
        _ => {}
    }
}

fn change_step(r: &mut Random, model: &Model, step: &mut Step) {
    match step {
        Step::Inference { row, .. } if r.chance(10) => *row = r.below(model.rows.len() + 1),
        Step::Deduction { hints, .. } if r.chance(50) => change_hints(r, hints),
        Step::Inference { fact, .. } | Step::Deduction { fact, .. } => change_fact(r, model, fact),
        _ => {}
    }
}

fn change_hints(r: &mut Random, hints: &mut Vec<usize>) {
    if hints.is_empty() {
        hints.push(0);
        return;
    }
    let (index, other) = (r.below(hints.len()), r.below(hints.len()));
    match r.below(6) {
        0 => hints.swap(index, other),
        1 => hints.insert(index, hints[other]),
        2 => hints[index] = hints[index].saturating_sub(1),
        3 => hints[index] += 1,
        4 => hints.truncate(index),
        _ => {
            hints.remove(index);
        }
    }
}

fn change_fact(r: &mut Random, model: &Model, fact: &mut Fact) {
    let count = fact.premises.len();
    match r.below(7) {
        0 | 1 if count > 0 => {
            fact.premises.remove(r.below(count));
        }
        2 | 3 if count > 0 => {
            let index = r.below(count);
            change_atom(r, model, &mut fact.premises[index]);
        }
        4 => {
            let atom = any_atom(r, model);
            fact.premises.insert(r.below(count + 1), atom);
        }
        5 if count > 0 => {
            let atom = fact.premises[r.below(count)];
            fact.premises.insert(r.below(count + 1), atom);
        }
        _ => match &mut fact.consequent {
            Some(atom) if r.chance(70) => change_atom(r, model, atom),
            Some(_) => fact.consequent = None,
            None => fact.consequent = Some(any_atom(r, model)),
        },
    }
}

fn change_atom(r: &mut Random, model: &Model, atom: &mut Atom) {
    match r.below(4) {
        0 => atom.relation = any_relation(r),
        1 => atom.variable = r.below(model.bounds.len()),
        2 => atom.value -= 1,
        _ => atom.value += 1,
    }
}

fn any_atom(r: &mut Random, model: &Model) -> Atom {
    let variable = r.below(model.bounds.len());
    let (low, high) = model.bounds[variable];
    Atom {
        variable,
        relation: any_relation(r),
        value: r.between(low, high),
    }
}

fn any_relation(r: &mut Random) -> Relation {
    let all = [
        Relation::AtMost,
        Relation::AtLeast,
        Relation::Equal,
        Relation::NotEqual,
    ];
    *r.pick(&all)
}
