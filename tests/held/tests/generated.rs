//! The library and the reference answer all generated cases alike, and every kind of answer
//! comes often enough.

use generator::Cases;
use held::{answers_alike, Differences, Tally, LIBRARY};
use std::time::Instant;

const SEEDS: [u64; 2] = [1, 2];
const CASES_EACH: usize = 100_000;
const LEAST: usize = 500;

fn hold(seed: u64) -> (Tally, Differences) {
    let mut tally = Tally::default();
    let mut differences = Differences::default();
    for case in Cases::new(seed).take(CASES_EACH) {
        match answers_alike(&case) {
            Ok(answer) => tally.add(&answer),
            Err(difference) => differences.add(difference),
        }
    }
    (tally, differences)
}

#[test]
fn all_are_answered_alike() {
    let begun = Instant::now();
    let mut tally = Tally::default();
    let mut differences = Differences::default();
    std::thread::scope(|scope| {
        let threads = SEEDS.map(|seed| scope.spawn(move || hold(seed)));
        for thread in threads {
            let found = thread.join().expect("no case ends the thread");
            tally.join(&found.0);
            differences.join(found.1);
        }
    });
    let seconds = begun.elapsed().as_secs();
    println!("{} cases in {seconds} s, {LIBRARY}", tally.total());
    print!("{tally}");
    differences.assert_none();
    assert!(tally.total() >= 200_000);
    let rare = tally.rarer_than(LEAST);
    assert!(rare.is_empty(), "fewer than {LEAST} times: {rare:?}");
}
