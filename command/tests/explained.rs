//! The explanation follows the library over many tables, damaged ones too, and never breaks.

use command::{explain, DISAGREES};
use dimpsyholt::{check, Refusal, Shut, PLACES};
use generator::Cases;
use std::collections::BTreeMap;

/// The library's refusal, if it is one.
fn refusal(model: &[i32], log: &[i32]) -> Option<Refusal> {
    match check(model, log, &mut vec![0; PLACES]) {
        Ok(_) => None,
        Err(Shut::Refused(refusal)) => Some(refusal),
        Err(Shut::Unknown(unknown)) => panic!("{unknown}"),
    }
}

/// Explains it; the number of the refusal, or 0.
fn explained(model: &[i32], log: &[i32]) -> u32 {
    let refusal = refusal(model, log);
    let page = explain(model, log, refusal);
    assert!(page.contains("The verdict above is the library's."), "{page}");
    assert!(!page.contains(DISAGREES), "{page}\n{model:?}\n{log:?}");
    refusal.map_or(0, |refusal| refusal.cause.number())
}

#[test]
fn known_tables_are_explained() {
    let cases = known::all();
    for case in &cases {
        explained(&case.model, &case.log);
    }
    println!("{} known cases explained", cases.len());
}

#[test]
fn generated_tables_are_explained() {
    let mut tally: BTreeMap<u32, usize> = BTreeMap::new();
    for case in Cases::new(13).take(60_000) {
        *tally.entry(explained(&case.model, &case.log)).or_default() += 1;
    }
    // 3 does not come: the command lends enough places
    for number in [0, 1, 2, 4, 5, 6, 7, 10, 11, 12, 13, 20, 21, 22, 23, 24] {
        let count = tally.get(&number).copied().unwrap_or_default();
        assert!(count >= 100, "{number}: {count}");
    }
    println!("{} generated cases explained", tally.values().sum::<usize>());
}

/// The explanation of one refusal is asked of the tables of another: it may be lost, it may not break.
#[test]
fn a_refusal_of_other_tables_breaks_nothing() {
    let mut earlier = None;
    for case in Cases::new(14).take(20_000) {
        explain(&case.model, &case.log, earlier);
        earlier = refusal(&case.model, &case.log);
    }
}
