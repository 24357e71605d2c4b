//! The logs that the library is meant for, and each rule by itself.

use crate::scenario::{checked, filled, unchanged, Scenario};
use tables::limits::{COEFFICIENT, DURATION, LOG_WORDS, VALUE};
use tables::{at_least, at_most, log_words, not_equal, Atom, Fact, Model, Row, Step};

pub fn all() -> Vec<Scenario> {
    let (model, steps) = generator::long_log(1);
    let mixed = checked("whole check, mixed steps", &model, &steps);
    let (model, steps) = generator::long_proof(1);
    let proof = checked("whole check, a search's proof", &model, &steps);
    let (model, steps) = generator::long_sum_proof(1);
    let sums = checked("whole check, a search's proof of sums", &model, &steps);
    let mixed_again = unchanged(&mixed, "recheck, nothing changed, mixed");
    let proof_again = unchanged(&proof, "recheck, nothing changed, proof");
    vec![
        mixed,
        proof,
        sums,
        mixed_again,
        proof_again,
        linear(),
        all_different(),
        all_different_with_holes(),
        cumulative_sure(),
        cumulative_starts(),
        circuit(),
        hints(),
    ]
}

/// As many inferences from the only row with these premises as fit, or as many as are wanted.
fn repeated(name: &str, model: Model, premises: &[Atom], most: usize) -> Scenario {
    let step = Step::Inference {
        row: 0,
        fact: Fact::new(premises, None),
    };
    filled(name, model, &[], step, most)
}

/// 16 terms of both signs over all values.
fn linear() -> Scenario {
    let terms: Vec<(i32, usize)> = (0..16)
        .map(|k| (COEFFICIENT - 7 * k, k as usize))
        .map(|(c, k)| if k % 2 == 0 { (c, k) } else { (-c, k) })
        .collect();
    let model = Model {
        bounds: vec![(-VALUE, VALUE); 16],
        rows: vec![Row::linear(0, &terms)],
    };
    let premises: Vec<Atom> = (0..16)
        .map(|k| match k % 2 {
            0 => at_least(k, VALUE / 2),
            _ => at_most(k, -VALUE / 2),
        })
        .collect();
    repeated("linear, 16 terms", model, &premises, usize::MAX)
}

/// 16 variables with 15 values.
fn all_different() -> Scenario {
    let variables: Vec<usize> = (0..16).collect();
    let model = Model {
        bounds: vec![(VALUE - 14, VALUE); 16],
        rows: vec![Row::all_different(&variables)],
    };
    let premises: Vec<Atom> = variables.iter().map(|&v| at_most(v, VALUE)).collect();
    repeated(
        "all-different, 16 in 15 values",
        model,
        &premises,
        usize::MAX,
    )
}

/// 8 variables with 7 values between 9, each with two holes.
fn all_different_with_holes() -> Scenario {
    let variables: Vec<usize> = (0..8).collect();
    let model = Model {
        bounds: vec![(0, 8); 8],
        rows: vec![Row::all_different(&variables)],
    };
    let mut premises = Vec::new();
    for &variable in &variables {
        premises.push(not_equal(variable, 3));
        premises.push(not_equal(variable, 5));
    }
    repeated("all-different, 8 with holes", model, &premises, usize::MAX)
}

/// 16 activities of 10,000 over wide starts that are all sure at one time.
fn cumulative_sure() -> Scenario {
    let activities: Vec<(usize, i32, i32)> = (0..16).map(|k| (k, DURATION, 1)).collect();
    let model = Model {
        bounds: vec![(-VALUE, VALUE); 16],
        rows: vec![Row::cumulative(15, &activities)],
    };
    let premises: Vec<Atom> = (0..16)
        .map(|k| match k % 2 {
            0 => at_least(k, VALUE - 9_000 + 13 * k as i32),
            _ => at_least(k, VALUE - 17 * k as i32),
        })
        .collect();
    repeated("cumulative, 16 sure at one time", model, &premises, 40)
}

/// The last of 16 activities finds every start from -100,000 to 100,000 blocked.
fn cumulative_starts() -> Scenario {
    let mut activities: Vec<(usize, i32, i32)> = (0..15).map(|k| (k, DURATION, 1)).collect();
    activities.push((15, DURATION, 1));
    let mut bounds: Vec<(i32, i32)> = (0..15)
        .map(|k| -VALUE + 14_000 * k)
        .map(|start| (start.min(VALUE), start.min(VALUE)))
        .collect();
    bounds.push((-VALUE, VALUE));
    let model = Model {
        bounds,
        rows: vec![Row::cumulative(1, &activities)],
    };
    let premises: Vec<Atom> = (0..8).map(|k| not_equal(15, 2_000 * k)).collect();
    repeated("cumulative, no start left", model, &premises, 10)
}

/// The last of 16 positions leads to itself, all others anywhere.
fn circuit() -> Scenario {
    let variables: Vec<usize> = (0..16).collect();
    let model = Model {
        bounds: vec![(-VALUE, VALUE); 16],
        rows: vec![Row::circuit(&variables)],
    };
    let premises = [at_least(15, 15)];
    repeated("circuit, 16 positions", model, &premises, 300)
}

/// Deductions that need all of their 64 hints.
fn hints() -> Scenario {
    let model = Model {
        bounds: vec![(0, 63), (0, 9)],
        rows: vec![Row::linear(-64, &[(-1, 0)])],
    };
    let mut steps: Vec<Step> = (0..64)
        .map(|value| Step::Inference {
            row: 0,
            fact: Fact::new(&[at_least(1, 0)], Some(not_equal(0, value * 37 % 64))),
        })
        .collect();
    let deduction = Step::Deduction {
        fact: Fact::default(),
        hints: (0..64).collect(),
    };
    let length = log_words(std::slice::from_ref(&deduction)).len();
    let count = (LOG_WORDS - 2 - log_words(&steps).len()) / length;
    steps.extend(vec![deduction; count]);
    steps.push(Step::NoAssignment { cited: 64 });
    checked("deductions with 64 hints", &model, &steps)
}
