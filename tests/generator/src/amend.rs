//! Amendments: an old and a new model for one log.

use crate::damage::damage;
use crate::models::any_row;
use crate::random::Random;
use tables::limits::VALUE;
use tables::{model_words, write_model, Model, Row, Step};

/// The old and the new words. The log was made for the old model, or at times for the new one.
pub fn amend(r: &mut Random, model: &Model, steps: &[Step]) -> (Vec<i32>, Vec<i32>) {
    let mut other = model.clone();
    match r.below(20) {
        0..=2 => {}
        3..=7 => change_row(r, &mut other, &cited_rows(model, steps)),
        8..=10 => change_row(r, &mut other, &uncited_rows(model, steps)),
        11 => (0..model.rows.len()).for_each(|row| change_row(r, &mut other, &[row])),
        12 | 13 => change_bounds(r, &mut other),
        14 => change_variables(r, &mut other),
        15 | 16 => change_row_count(r, &mut other),
        17 => return (damage(r, &write_model(model)), model_words(model)),
        18 => return (model_words(model), damage(r, &write_model(model))),
        _ => swap_rows(r, &mut other),
    }
    let (old, new) = (model_words(model), model_words(&other));
    if r.chance(75) {
        (old, new)
    } else {
        (new, old)
    }
}

fn is_cited(steps: &[Step], number: usize) -> bool {
    let cites = |step: &Step| matches!(step, Step::Inference { row, .. } if *row == number);
    steps.iter().any(cites)
}

fn cited_rows(model: &Model, steps: &[Step]) -> Vec<usize> {
    let rows = 0..model.rows.len();
    rows.filter(|&row| is_cited(steps, row)).collect()
}

fn uncited_rows(model: &Model, steps: &[Step]) -> Vec<usize> {
    let rows = 0..model.rows.len();
    rows.filter(|&row| !is_cited(steps, row)).collect()
}

/// Changes one of the given rows a little, or replaces it.
fn change_row(r: &mut Random, model: &mut Model, rows: &[usize]) {
    if rows.is_empty() {
        return;
    }
    let number = *r.pick(rows);
    if r.chance(25) {
        model.rows[number] = any_row(r, model);
        return;
    }
    match &mut model.rows[number] {
        Row::Linear { bound, terms } => match r.below(4) {
            0 => *bound = bound.saturating_sub(1),
            1 => *bound = bound.saturating_add(1),
            2 => terms.rotate_left(1),
            _ => {
                let index = r.below(terms.len());
                terms[index].coefficient += r.between(-1, 1);
            }
        },
        Row::Cumulative {
            capacity,
            activities,
        } => {
            let index = r.below(activities.len());
            match r.below(4) {
                0 => *capacity = (*capacity - 1).max(0),
                1 => *capacity += 1,
                2 => activities[index].duration += 1,
                _ => activities[index].usage = (activities[index].usage - 1).max(0),
            }
        }
        Row::AllDifferent { variables } | Row::Circuit { variables } => {
            if variables.len() > 2 && r.chance(50) {
                variables.pop();
            } else {
                variables.rotate_left(1);
            }
        }
    }
}

fn change_bounds(r: &mut Random, model: &mut Model) {
    let variable = r.below(model.bounds.len());
    let (low, high) = &mut model.bounds[variable];
    match r.below(4) {
        0 => *low = (*low - 1).max(-VALUE),
        1 => *high = (*high + 1).min(VALUE),
        2 => *low = (*low + 1).min(*high),
        _ => *high = (*high - 1).max(*low),
    }
}

fn change_variables(r: &mut Random, model: &mut Model) {
    if r.chance(70) {
        model.bounds.push((0, r.between(0, 5)));
    } else {
        model.bounds.pop();
    }
}

fn change_row_count(r: &mut Random, model: &mut Model) {
    if r.chance(60) || model.rows.is_empty() {
        let row = any_row(r, model);
        model.rows.push(row);
    } else {
        model.rows.pop();
    }
}

fn swap_rows(r: &mut Random, model: &mut Model) {
    let count = model.rows.len();
    if count > 0 {
        model.rows.swap(r.below(count), r.below(count));
    }
}
