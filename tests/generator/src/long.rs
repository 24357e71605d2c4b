//! Logs close to the longest that there are.

use crate::random::Random;
use crate::search::{prove, Effort};
use tables::limits::{HINTS, LOG_WORDS, PREMISES};
use tables::{at_least, at_most, equal, log_words, not_equal, Atom, Fact, Model, Row, Step};

/// Thousands of steps, accepted, with citations from near and far.
pub fn long(r: &mut Random) -> (Model, Vec<Step>) {
    let model = Model {
        bounds: vec![(0, 70), (-9, 9)],
        rows: vec![
            Row::linear(-71, &[(-1, 0)]),
            Row::linear(5, &[(1, 1), (1, 1)]),
        ],
    };
    let mut steps = vec![falsehood()];
    let mut words = 2 + log_words(&steps).len();
    loop {
        let step = any_step(r, steps.len());
        let length = log_words(std::slice::from_ref(&step)).len();
        if words + length > LOG_WORDS {
            break;
        }
        words += length;
        steps.push(step);
    }
    steps.push(Step::NoAssignment { cited: 0 });
    (model, steps)
}

/// One such log from a seed.
pub fn long_log(seed: u64) -> (Model, Vec<Step>) {
    long(&mut Random::new(seed))
}

/// A long log that a search wrote, twice over: five numbers out of four cannot differ in pairs.
pub fn long_proof(seed: u64) -> (Model, Vec<Step>) {
    let mut rows = Vec::new();
    for first in 0..5 {
        for second in first + 1..5 {
            rows.push(Row::all_different(&[first, second]));
        }
    }
    let model = Model {
        bounds: vec![(1, 4); 5],
        rows,
    };
    let effort = Effort {
        nodes: 10_000,
        steps: 1_000,
    };
    let mut r = Random::new(seed);
    loop {
        let proofs = [prove(&mut r, &model, effort), prove(&mut r, &model, effort)];
        let [Some(first), Some(second)] = proofs else {
            continue;
        };
        let steps = one_after_other(first, second);
        if (LOG_WORDS * 3 / 4..=LOG_WORDS).contains(&log_words(&steps).len()) {
            return (model, steps);
        }
    }
}

/// Long as well, with linear rows alone: no four whole numbers from 1 to 4 add up to ten and a half. As many proofs as fit, one after the other.
pub fn long_sum_proof(seed: u64) -> (Model, Vec<Step>) {
    let terms = |c| (0..4).map(|v| (c, v)).collect::<Vec<(i32, usize)>>();
    let model = Model {
        bounds: vec![(1, 4); 4],
        rows: vec![Row::linear(21, &terms(2)), Row::linear(-21, &terms(-2))],
    };
    let effort = Effort {
        nodes: 10_000,
        steps: 1_000,
    };
    let mut r = Random::new(seed);
    let mut steps: Option<Vec<Step>> = None;
    loop {
        let Some(more) = prove(&mut r, &model, effort) else {
            continue;
        };
        let longer = match &steps {
            None => more,
            Some(before) => one_after_other(before.clone(), more),
        };
        if log_words(&longer).len() > LOG_WORDS {
            return (model, steps.expect("one proof fits"));
        }
        steps = Some(longer);
    }
}

/// The steps of both, with the conclusion of the second only.
fn one_after_other(mut first: Vec<Step>, mut second: Vec<Step>) -> Vec<Step> {
    first.pop();
    for step in &mut second {
        match step {
            Step::Deduction { hints, .. } => hints.iter_mut().for_each(|h| *h += first.len()),
            Step::NoAssignment { cited } | Step::NeverBelow { cited, .. } => *cited += first.len(),
            Step::Inference { .. } => {}
        }
    }
    first.extend(second);
    first
}

fn falsehood() -> Step {
    Step::Inference {
        row: 0,
        fact: Fact::default(),
    }
}

fn any_step(r: &mut Random, number: usize) -> Step {
    match r.below(40) {
        0 => many_hints(r, number),
        1..=3 => Step::Inference {
            row: 1,
            fact: Fact::new(&[at_least(0, 7)], Some(at_most(1, 2))),
        },
        4..=8 => Step::Inference {
            row: 0,
            fact: Fact::new(&[], Some(not_equal(0, r.between(1, 70)))),
        },
        9..=16 => Step::Deduction {
            fact: Fact::new(&[], Some(at_least(1, 3))),
            hints: vec![0],
        },
        _ => falsehood(),
    }
}

/// Fact 0 is "false", so any hints may stand behind it.
fn many_hints(r: &mut Random, number: usize) -> Step {
    let mut hints = vec![0];
    for _ in 1..r.between(1, HINTS) {
        hints.push(r.below(number));
    }
    Step::Deduction {
        fact: Fact::default(),
        hints,
    }
}

/// One deduction that needs all of its hints, at most 64, and all the holes of its premises.
pub fn hint_chain(r: &mut Random) -> (Model, Vec<Step>) {
    let length = r.between(1, HINTS) as usize;
    let given = r.between(0, PREMISES) as usize;
    let count = length + given + 1;
    let mut values: Vec<i32> = (0..count as i32).collect();
    r.shuffle(&mut values);
    let premises: Vec<Atom> = values[..given].iter().map(|&v| not_equal(0, v)).collect();
    let model = Model {
        bounds: vec![(0, count as i32 - 1)],
        rows: vec![Row::linear(-(count as i32), &[(-1, 0)])],
    };
    let mut steps = Vec::new();
    for &value in &values[given + 1..] {
        let fact = Fact::new(&[], Some(not_equal(0, value)));
        steps.push(Step::Inference { row: 0, fact });
    }
    steps.push(Step::Deduction {
        fact: Fact::new(&premises, Some(equal(0, values[given]))),
        hints: r.sample(length, length),
    });
    steps.push(falsehood());
    steps.push(Step::NoAssignment { cited: length + 1 });
    (model, steps)
}
