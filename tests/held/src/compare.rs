//! One case, answered by the library and by the reference.

use crate::library::answer;
use generator::Case;
use tables::Answer;

/// Places as they are lent: a pattern that no step writes.
pub fn lent(count: usize) -> Vec<u32> {
    let pattern = |k: u32| k.wrapping_mul(0x9E37_79B9) | 0x8000_0000;
    (0..count as u32).map(pattern).collect()
}

/// The answer of both, or what differs: a field, a place, or a table that was written to.
pub fn answers_alike(case: &Case) -> Result<Answer, String> {
    let given = case.clone();
    let mut places = lent(case.places);
    let ours = answer(given.old.as_deref(), &given.model, &given.log, &mut places);
    let mut expected = lent(case.places);
    let theirs = by_reference(case, &mut expected);
    if ours != theirs {
        return Err(format!("{ours:?} instead of {theirs:?} for {case:?}"));
    }
    if let Some(k) = (0..case.places).find(|&k| places[k] != expected[k]) {
        let (is, should) = (places[k], expected[k]);
        return Err(format!(
            "place {k} is {is} instead of {should} for {case:?}"
        ));
    }
    if (&given.old, &given.model, &given.log) != (&case.old, &case.model, &case.log) {
        return Err(format!("a table was written to for {case:?}"));
    }
    Ok(ours)
}

fn by_reference(case: &Case, places: &mut [u32]) -> Answer {
    match &case.old {
        Some(old) => reference::recheck(old, &case.model, &case.log, places),
        None => reference::check(&case.model, &case.log, places),
    }
}
