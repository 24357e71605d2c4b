//! No accepted claim is false: every assignment of the small models is tried.

use generator::{Case, Cases};
use held::{answer, counterexample, lent, Search};
use tables::Answer;

const CASES: usize = 40_000;
const LEAST: usize = 500;

fn ask(old: Option<&[i32]>, case: &Case) -> (Answer, Vec<u32>) {
    let mut places = lent(case.places);
    let answer = answer(old, &case.model, &case.log, &mut places);
    (answer, places)
}

/// Tries all assignments; false if there are too many.
fn holds(answer: &Answer, case: &Case) -> bool {
    let model = reference::read_model(&case.model).expect("the model of an accepted log is good");
    match counterexample(&model, answer) {
        Search::TooMany => false,
        Search::Holds { .. } => true,
        Search::Broken(values) => panic!("{values:?} breaks {answer:?} of {case:?}"),
    }
}

#[test]
fn accepted_claims_are_true() {
    let mut tried = 0;
    for case in Cases::new(11).take(CASES) {
        let (answer, _) = ask(None, &case);
        if answer.is_accepted() && holds(&answer, &case) {
            tried += 1;
        }
    }
    println!("{tried} accepted claims tried");
    assert!(tried >= LEAST);
}

/// A log that the old model accepted and that was carried is accepted by the new one as well.
#[test]
fn carried_claims_are_true() {
    let mut tried = 0;
    for case in Cases::new(12).take(CASES) {
        let Some(old) = &case.old else { continue };
        let (carried, places) = ask(Some(old), &case);
        let before = Case {
            model: old.clone(),
            ..case.clone()
        };
        if !carried.is_carried() || !ask(None, &before).0.is_accepted() {
            continue;
        }
        let (after, places_after) = ask(None, &case);
        assert!(after.is_accepted(), "{case:?}");
        assert_eq!(places, places_after, "{case:?}");
        assert_eq!(
            (carried.conclusion, carried.variable, carried.value),
            (after.conclusion, after.variable, after.value),
            "{case:?}"
        );
        if holds(&carried, &case) {
            tried += 1;
        }
    }
    println!("{tried} carried claims tried");
    assert!(tried >= LEAST);
}

/// Models that agree on all cited rows get the same answer and places.
#[test]
fn uncited_rows_do_not_matter() {
    let mut tried = 0;
    for case in Cases::new(13).take(2 * CASES) {
        let Some(old) = &case.old else { continue };
        let (recheck, _) = ask(Some(old), &case);
        let whole = recheck.is_accepted() || recheck.changed == 0;
        if recheck.is_refused() || whole || recheck.judged > 0 {
            continue;
        }
        let before = Case {
            model: old.clone(),
            ..case.clone()
        };
        assert_eq!(ask(None, &before), ask(None, &case), "{case:?}");
        tried += 1;
    }
    println!("{tried} amendments of uncited rows tried");
    assert!(tried >= LEAST);
}
