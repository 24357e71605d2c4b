//! Every word of some tables at each end of its range and one past it.

use generator::sweep;
use held::{answers_alike, Differences};

#[test]
fn each_word_at_its_limits() {
    let cases = sweep(3);
    let mut differences = Differences::default();
    for case in &cases {
        if let Err(difference) = answers_alike(case) {
            differences.add(difference);
        }
    }
    println!("{} words at or past their limits", cases.len());
    differences.assert_none();
    assert!(cases.len() >= 5_000);
}
