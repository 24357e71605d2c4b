//! The known cases alone notice each deliberate fault.

use reference::{check_with, recheck_with, Fault};
use tables::Answer;

#[test]
fn each_fault_is_noticed() {
    let cases = known::all();
    for &fault in Fault::ALL {
        let slip = Some(fault);
        let answer =
            move |old: Option<&[i32]>, model: &[i32], log: &[i32], places: &mut [u32]| -> Answer {
                match old {
                    Some(old) => recheck_with(slip, old, model, log, places),
                    None => check_with(slip, model, log, places),
                }
            };
        let failures = known::failures(&cases, &answer);
        assert!(!failures.is_empty(), "{fault:?} goes unnoticed");
    }
}
