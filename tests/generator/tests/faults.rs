//! Each deliberate fault of the reference is noticed by a generated case.

use generator::{Case, Cases};
use reference::{check_with, recheck_with, Fault, Slip};
use tables::Answer;

/// These cases are among those that the library is held against.
const CASES: usize = 60_000;

/// The answer and the places of the reference with one fault, or with none.
fn outcome(slip: Slip, case: &Case) -> (Answer, Vec<u32>) {
    let mut places: Vec<u32> = (0..case.places as u32).map(|k| !k).collect();
    let answer = match &case.old {
        Some(old) => recheck_with(slip, old, &case.model, &case.log, &mut places),
        None => check_with(slip, &case.model, &case.log, &mut places),
    };
    (answer, places)
}

#[test]
fn there_are_enough_faults() {
    assert!(Fault::ALL.len() >= 24);
}

#[test]
fn each_fault_is_noticed() {
    let mut unnoticed = Fault::ALL.to_vec();
    for (number, case) in Cases::new(1).take(CASES).enumerate() {
        let truth = outcome(None, &case);
        unnoticed.retain(|&fault| {
            let noticed = outcome(Some(fault), &case) != truth;
            if noticed {
                println!("{fault:?}: noticed by case {number}");
            }
            !noticed
        });
        if unnoticed.is_empty() {
            return;
        }
    }
    panic!("unnoticed in {CASES} cases: {unnoticed:?}");
}
