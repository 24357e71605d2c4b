//! The fast version gives every known answer and those of the reference.

use generator::{Case, Cases};
use tables::Answer;

fn fast(old: Option<&[i32]>, model: &[i32], log: &[i32], places: &mut [u32]) -> Answer {
    match old {
        Some(old) => fast::recheck(old, model, log, places),
        None => fast::check(model, log, places),
    }
}

fn reference(old: Option<&[i32]>, model: &[i32], log: &[i32], places: &mut [u32]) -> Answer {
    match old {
        Some(old) => reference::recheck(old, model, log, places),
        None => reference::check(model, log, places),
    }
}

#[test]
fn known_answers() {
    let failures = known::failures(&known::all(), &fast);
    assert!(failures.is_empty(), "{}", failures.join("\n"));
}

#[test]
fn generated_cases() {
    for case in Cases::new(0xFA57).take(20_000) {
        let Case {
            old, model, log, ..
        } = &case;
        let mut ours = vec![7; case.places];
        let mut theirs = ours.clone();
        let answer = fast(old.as_deref(), model, log, &mut ours);
        let expected = reference(old.as_deref(), model, log, &mut theirs);
        assert_eq!(answer, expected, "{case:?}");
        assert!(ours == theirs, "places of {case:?}");
    }
}
