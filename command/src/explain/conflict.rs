//! 21: the row does not conflict with what the fact leaves.

use super::log::{Body, Step};
use super::model::{Model, Row};
use super::page::Page;
use super::values::box_of;
use super::{all_different, circuit, cumulative, linear};

pub fn explain(page: &mut Page, model: &Model, step: &Step) {
    let Body::Inference { row, fact } = &step.body else {
        return page.disagrees();
    };
    let left = box_of(model, fact);
    let conflicts = match &model.rows[*row] {
        Row::Linear { bound, terms } => linear::conflicts(page, *bound, terms, &left),
        Row::AllDifferent { variables } => all_different::conflicts(page, variables, fact, &left),
        Row::Cumulative { capacity, activities } => cumulative::conflicts(page, *capacity, activities, &left),
        Row::Circuit { variables } => circuit::conflicts(page, variables, &left),
    };
    if conflicts {
        page.disagrees();
    }
}
