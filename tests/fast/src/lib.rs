//! The same answers as the reference, written for speed: no heap, intervals with holes, and the
//! places as the table by which steps are cited. Bounds checks stay on.

mod all_different;
mod circuit;
mod cumulative;
mod cursor;
mod domains;
mod linear;
mod model;
mod run;
mod step;

use model::Shape;
use run::Run;
use tables::limits::{LOG_WORDS, MODEL_WORDS, PLACES};
use tables::Answer;

/// Checks the log against the model and writes the places of the passed steps.
pub fn check(model: &[i32], log: &[i32], places: &mut [u32]) -> Answer {
    match validate(model, log, places) {
        Ok(shape) => Run::new(model, &shape, log, None).answer(places).0,
        Err((number, position)) => Answer::refused(number, 0, position),
    }
}

/// Checks again after an amendment, judging only what cites a changed row.
pub fn recheck(old: &[i32], new: &[i32], log: &[i32], places: &mut [u32]) -> Answer {
    let shape = match validate(new, log, places) {
        Ok(shape) => shape,
        Err((number, position)) => return Answer::refused(number, 0, position),
    };
    let changed = changed_rows(old, new, &shape);
    let (answer, judged) = Run::new(new, &shape, log, changed).answer(places);
    let size = changed.map_or(shape.rows as u32, u64::count_ones);
    answer.with_counts(size, judged)
}

/// Refusals 1 to 7.
fn validate(model: &[i32], log: &[i32], places: &[u32]) -> Result<Shape, model::Refusal> {
    if model.len() > MODEL_WORDS {
        return Err((1, 0));
    }
    if log.len() > LOG_WORDS {
        return Err((2, 0));
    }
    if places.len() < PLACES {
        return Err((3, 0));
    }
    Shape::read(model)
}

/// One bit per row that differs, or nothing where the recheck is the whole check.
fn changed_rows(old: &[i32], new: &[i32], shape: &Shape) -> Option<u64> {
    if old.len() > MODEL_WORDS {
        return None;
    }
    let old_shape = Shape::read(old).ok()?;
    // the words up to the first row: V, the bounds and C
    let head = 2 + 2 * shape.variables;
    if old.get(..head) != new.get(..head) {
        return None;
    }
    let mut changed = 0;
    for row in 0..shape.rows {
        if old_shape.row(old, row) != shape.row(new, row) {
            changed |= 1 << row;
        }
    }
    Some(changed)
}
