//! Lengths that 32 bits cannot hold are not cut short.

use held::{answer, lent, Vast};
use known::whole_example;
use tables::limits::PLACES;
use tables::{Answer, Conclusion};

/// What is lost if a length is cut to 32 bits.
const WRAP: usize = 1 << 32;

#[test]
fn a_vast_model() {
    let (model, log) = whole_example();
    let mut vast = Vast::new(&model, WRAP + model.len());
    let mut places = lent(PLACES);
    let refused = Answer::refused(1, 0, 0);
    assert_eq!(answer(None, vast.entries(), &log, &mut places), refused);
    assert_eq!(places, lent(PLACES));
}

#[test]
fn a_vast_log() {
    let (model, log) = whole_example();
    let mut vast = Vast::new(&log, WRAP + log.len());
    let mut places = lent(PLACES);
    let refused = Answer::refused(2, 0, 0);
    assert_eq!(answer(None, &model, vast.entries(), &mut places), refused);
    assert_eq!(places, lent(PLACES));
}

#[test]
fn a_vast_old_model() {
    let (model, log) = whole_example();
    let mut vast = Vast::new(&model, WRAP + model.len());
    let mut places = lent(PLACES);
    let whole = Answer::accepted(Conclusion::NoAssignment).with_counts(1, 3);
    let given = answer(Some(vast.entries()), &model, &log, &mut places);
    assert_eq!(given, whole);
}

#[test]
fn vast_places() {
    let (model, log) = whole_example();
    let mut vast = Vast::new(&lent(PLACES), WRAP + 2);
    let accepted = Answer::accepted(Conclusion::NoAssignment);
    assert_eq!(answer(None, &model, &log, vast.entries()), accepted);
    let mut expected = lent(PLACES);
    expected[..3].copy_from_slice(&[0, 13, 18]);
    assert_eq!(vast.entries()[..PLACES], expected);
}
