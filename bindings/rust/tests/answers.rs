//! The safe functions say what the library says.

use dimpsyholt::{check, version, Cause, Conclusion, Held, Shut, PLACES, VERSION};

const MODEL: [i32; 13] = [3, 1, 2, 1, 2, 1, 2, 1, 2, 3, 0, 1, 2];
const LOG: [i32; 20] = [1, 0, 3, 0, 2, 1, 1, 2, 1, 2, 2, 1, 0, 2, 0, 0, 1, 0, 3, 1];

/// The verdict as it is printed, and the places.
fn checked(model: &[i32], log: &[i32]) -> (String, Vec<u32>) {
    let mut places = vec![77; PLACES];
    let verdict = match check(model, log, &mut places) {
        Ok(accepted) => accepted.to_string(),
        Err(shut) => shut.to_string(),
    };
    (verdict, places)
}

#[test]
fn the_library_is_of_this_version() {
    assert_eq!(version(), VERSION);
}

#[test]
fn the_whole_example_is_accepted() {
    let mut places = vec![77; PLACES];
    let accepted = check(&MODEL, &LOG, &mut places).unwrap();
    assert_eq!(accepted.conclusion(), Conclusion::NoAssignment);
    assert_eq!((accepted.model(), accepted.log()), (&MODEL[..], &LOG[..]));
    assert_eq!(places[..4], [0, 13, 18, 77]);
    assert_eq!(
        accepted.to_string(),
        "accepted: no assignment meets every row"
    );
}

#[test]
fn an_empty_log_is_refused() {
    let mut places = vec![77; PLACES];
    let Err(Shut::Refused(refusal)) = check(&MODEL, &[], &mut places) else {
        panic!("not refused");
    };
    assert_eq!(
        (refusal.cause, refusal.step, refusal.position),
        (Cause::NoConclusion, 0, 0)
    );
    assert!(places.iter().all(|&place| place == 77));
}

#[test]
fn a_bound_is_named() {
    let model = [1, 0, 10, 1, 1, 1, -3, -1, 0];
    let claim = |value| checked(&model, &[1, 0, 0, 1, 0, 2, 3, 4, 0, value, 0]).0;
    assert_eq!(claim(2), "accepted: variable 0 is never below 2");
    assert_eq!(
        claim(4),
        "refused 24 at step 1: the fact does not fit the conclusion"
    );
}

#[test]
fn refusals_say_where_to_look() {
    let (verdict, _) = checked(&MODEL[..12], &LOG);
    assert_eq!(verdict, "refused 4 at model word 12: the model ends early");
    let (verdict, places) = checked(&MODEL, &LOG[..19]);
    assert_eq!(
        verdict,
        "refused 11 at step 2, log word 19: the log ends inside a step"
    );
    assert_eq!(places[..3], [0, 13, 77]);
    let (verdict, _) = checked(
        &[1, 0, 5, 1, 1, 1, 0, 1, 0],
        &[1, 0, 1, 0, 2, 1, 0, 2, 0, 0, 1, 0],
    );
    assert_eq!(
        verdict,
        "refused 22 at step 1, hint 0: a hint does not apply"
    );
}

#[test]
fn few_places_are_refused() {
    let shut = check(&MODEL, &LOG, &mut [0; 3]).unwrap_err();
    assert_eq!(
        shut.to_string(),
        "refused 3: fewer than 4,096 places were lent"
    );
}

#[test]
fn rechecks_are_told_apart() {
    let mut places = vec![0; PLACES];
    let accepted = check(&MODEL, &LOG, &mut places).unwrap();

    let same = accepted.recheck(&MODEL, &mut places);
    let Ok(Held::Carried(carried)) = same.verdict else {
        panic!("{same:?}");
    };
    assert_eq!(
        (carried.conclusion(), carried.model()),
        (Conclusion::NoAssignment, &MODEL[..])
    );
    assert_eq!((same.changed, same.judged), (0, 0));

    let one_more_row = [3, 1, 2, 1, 2, 1, 2, 2, 2, 3, 0, 1, 2, 2, 2, 0, 1];
    let whole = accepted.recheck(&one_more_row, &mut places);
    let Ok(Held::Accepted(again)) = whole.verdict else {
        panic!("{whole:?}");
    };
    assert_eq!((again.model(), again.log()), (&one_more_row[..], &LOG[..]));
    assert_eq!((whole.changed, whole.judged), (2, 3));

    let fewer = [3, 1, 2, 1, 2, 1, 2, 1, 2, 2, 0, 1];
    let refused = accepted.recheck(&fewer, &mut places);
    assert_eq!(
        refused.verdict.unwrap_err().to_string(),
        "refused 21 at step 0: the row does not conflict"
    );
    assert_eq!((refused.changed, refused.judged), (1, 1));
}
