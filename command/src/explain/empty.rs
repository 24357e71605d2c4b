//! 20: a variable has no value left.

use super::log::Step;
use super::model::Model;
use super::page::{line, Page};
use super::say;
use super::values::{assumed, box_of, declared};

pub fn explain(page: &mut Page, model: &Model, step: &Step) {
    let Some(fact) = step.fact() else {
        return page.disagrees();
    };
    let left = box_of(model, fact);
    let Some(variable) = left.iter().position(|values| values.is_empty()) else {
        return page.disagrees();
    };
    line!(
        page,
        0,
        "Why: x{variable} has no value left, so the fact says nothing that a row or a hint would have to show."
    );
    let mut values = declared(model).swap_remove(variable);
    line!(page, 1, "declared: {values}");
    for (k, atom) in assumed(fact).iter().enumerate() {
        if atom.variable == variable {
            values = values.narrowed(atom);
            let role = if k < fact.premises.len() { "premise" } else { "the consequent does not hold" };
            line!(page, 1, "{role}, {}: leaves {values}", say::atom(atom));
        }
    }
}
