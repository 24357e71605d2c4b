//! The whole check and the recheck.

use crate::fault::{Fault, Slip};
use crate::read_model::{read_model, Refusal};
use crate::run::{run, Scope};
use tables::limits::{LOG_WORDS, MODEL_WORDS, PLACES};
use tables::{Answer, Conclusion, Model, Row};

/// The whole check with one fault, or with none.
pub fn check_with(slip: Slip, model: &[i32], log: &[i32], places: &mut [u32]) -> Answer {
    if let Some(answer) = always(slip) {
        return answer;
    }
    let model = match read_inputs(model, log, places.len(), slip) {
        Ok(model) => model,
        Err((number, position)) => return Answer::refused(number, 0, position),
    };
    run(&model, log, places, &Scope::Whole, slip).answer
}

/// The recheck with one fault, or with none.
pub fn recheck_with(
    slip: Slip,
    old: &[i32],
    new: &[i32],
    log: &[i32],
    places: &mut [u32],
) -> Answer {
    if let Some(answer) = always(slip) {
        return answer;
    }
    let new = match read_inputs(new, log, places.len(), slip) {
        Ok(model) => model,
        Err((number, position)) => {
            let rows = refused_rows(new, slip);
            return Answer::refused(number, 0, position).with_counts(rows, 0);
        }
    };
    let Some(changed) = changed_rows(old, &new, slip) else {
        let outcome = run(&new, log, places, &Scope::Whole, slip);
        return outcome
            .answer
            .with_counts(whole_size(&new, slip), outcome.judged);
    };
    let size = changed.iter().filter(|&&row| row).count() as u32;
    let scope = match slip {
        Some(Fault::RecheckAlwaysCarried) => Scope::Changed(vec![false; changed.len()]),
        _ => Scope::Changed(changed.clone()),
    };
    let outcome = run(&new, log, places, &scope, slip);
    let size = match slip {
        Some(Fault::ChangedOnlyCited) => count_cited(&changed, &outcome.cited_rows),
        _ => size,
    };
    outcome.answer.with_counts(size, outcome.judged)
}

/// Two of the faults do not look at the tables at all.
fn always(slip: Slip) -> Option<Answer> {
    match slip {
        Some(Fault::RefusesAll) => Some(Answer::refused(10, 0, 0)),
        Some(Fault::AlwaysTheSame) => Some(Answer::accepted(Conclusion::NoAssignment)),
        _ => None,
    }
}

/// Refusals 1 to 7, in their order.
fn read_inputs(model: &[i32], log: &[i32], places: usize, slip: Slip) -> Result<Model, Refusal> {
    if model.len() > MODEL_WORDS {
        return Err((1, 0));
    }
    let tight = |fault| (slip == Some(fault)) as usize;
    if log.len() > LOG_WORDS - tight(Fault::LogLimitTight) {
        return Err((2, 0));
    }
    let needed = match slip {
        Some(Fault::FewPlacesAllowed) => log.len() / 2,
        _ => PLACES + tight(Fault::PlacesLimitTight),
    };
    if places < needed {
        return Err((3, 0));
    }
    read_model(model, slip)
}

/// For each row whether its words differ, or nothing where the recheck is the whole check.
fn changed_rows(old: &[i32], new: &Model, slip: Slip) -> Option<Vec<bool>> {
    if slip == Some(Fault::RecheckIsWholeCheck) {
        return None;
    }
    let Ok(old) = read_model(old, slip) else {
        let trusted = slip == Some(Fault::BadOldModelTrusted);
        return trusted.then(|| vec![false; new.rows.len()]);
    };
    let same_bounds = old.bounds == new.bounds
        || (slip == Some(Fault::BoundChangeOverlooked) && old.bounds.len() == new.bounds.len());
    let same_count =
        old.rows.len() == new.rows.len() || slip == Some(Fault::RowCountChangeOverlooked);
    if !same_bounds || !same_count {
        return None;
    }
    let differs = |(number, row)| is_changed(old.rows.get(number), row, slip);
    let mut changed: Vec<bool> = new.rows.iter().enumerate().map(differs).collect();
    if let (Some(last), Some(Fault::ChangedForgetsLastRow)) = (changed.last_mut(), slip) {
        *last = false;
    }
    Some(changed)
}

/// Two rows are equal exactly where their words are.
fn is_changed(old: Option<&Row>, new: &Row, slip: Slip) -> bool {
    let Some(old) = old else {
        return true; // only a fault compares models with differing numbers of rows
    };
    if slip == Some(Fault::ChangedByShape) {
        let kind = std::mem::discriminant(old) != std::mem::discriminant(new);
        return kind || old.variables().len() != new.variables().len();
    }
    old != new
}

fn whole_size(model: &Model, slip: Slip) -> u32 {
    match slip {
        Some(Fault::WholeModeReportsZero) => 0,
        _ => model.rows.len() as u32,
    }
}

fn refused_rows(model: &[i32], slip: Slip) -> u32 {
    let variables = model.first().copied().unwrap_or(0).clamp(0, 64) as usize;
    let rows = model.get(1 + 2 * variables).copied().unwrap_or(0);
    match slip {
        Some(Fault::RefusedModelReportsRows) => rows as u32,
        _ => 0,
    }
}

fn count_cited(changed: &[bool], cited: &[usize]) -> u32 {
    let rows = (0..changed.len()).filter(|row| changed[*row] && cited.contains(row));
    rows.count() as u32
}
