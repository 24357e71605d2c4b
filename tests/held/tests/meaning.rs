//! With every variable fixed, an inference passes exactly where the assignment breaks the row.
//!
//! Only the meaning of the rows is used here, not the reference.

use generator::{any_row, Random};
use held::{answer, satisfies};
use tables::limits::PLACES;
use tables::{equal, log_words, model_words, Answer, Atom, Fact, Model, Step};

const CASES: usize = 20_000;

/// A model with one row, and values for its variables.
fn assigned(r: &mut Random) -> (Model, Vec<i32>) {
    let count = r.between(2, 6) as usize;
    let mut model = Model {
        bounds: vec![(-2, count as i32); count],
        rows: Vec::new(),
    };
    let row = any_row(r, &model);
    model.rows.push(row);
    let values = if r.chance(30) {
        // a permutation, for circuits and all-different
        r.sample(count, count).iter().map(|&v| v as i32).collect()
    } else {
        (0..count).map(|_| r.between(-2, count as i32)).collect()
    };
    (model, values)
}

#[test]
fn fixed_assignments() {
    let mut r = Random::new(41);
    let mut broken = 0;
    for _ in 0..CASES {
        let (model, values) = assigned(&mut r);
        let premises: Vec<Atom> = values
            .iter()
            .enumerate()
            .map(|(variable, &value)| equal(variable, value))
            .collect();
        let log = log_words(&[Step::Inference {
            row: 0,
            fact: Fact::new(&premises, None),
        }]);
        let expected = if satisfies(&model.rows[0], &values) {
            Answer::refused(21, 0, 0)
        } else {
            broken += 1;
            Answer::refused(10, 1, log.len())
        };
        let mut places = vec![0; PLACES];
        let answer = answer(None, &model_words(&model), &log, &mut places);
        assert_eq!(answer, expected, "{model:?} with {values:?}");
    }
    println!("{CASES} assignments, cases of a broken row: {broken}");
    assert!((CASES / 5..CASES * 4 / 5).contains(&broken));
}
