//! What is timed against each other.

use tables::Answer;

/// The old model (for a recheck), the model, the log, the places.
pub type Subject = fn(Option<&[i32]>, &[i32], &[i32], &mut [u32]) -> Answer;

/// In the order of the columns.
pub const ALL: [(&str, Subject); 3] = [
    ("library", held::answer),
    ("fast", fast),
    ("reference", reference),
];

/// The reference takes seconds where sets are wide, so most logs are timed without it.
pub const QUICK: [(&str, Subject); 2] = [ALL[0], ALL[1]];

fn fast(old: Option<&[i32]>, model: &[i32], log: &[i32], places: &mut [u32]) -> Answer {
    match old {
        Some(old) => fast::recheck(old, model, log, places),
        None => fast::check(model, log, places),
    }
}

fn reference(old: Option<&[i32]>, model: &[i32], log: &[i32], places: &mut [u32]) -> Answer {
    match old {
        Some(old) => reference::recheck(old, model, log, places),
        None => reference::check(model, log, places),
    }
}
