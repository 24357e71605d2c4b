//! Every word of some tables at each end of its range and one past it.

use crate::cases::Case;
use crate::long::hint_chain;
use crate::models::small_model;
use crate::random::Random;
use crate::search::{prove, Effort};
use crate::wide::wide;
use tables::limits::PLACES;
use tables::{write_log, write_model, Model, Step, Written};

/// The cases of a few models and logs from a seed.
pub fn sweep(seed: u64) -> Vec<Case> {
    let mut r = Random::new(seed);
    let mut cases = Vec::new();
    let mut proofs = 0;
    while proofs < 12 {
        let model = small_model(&mut r);
        let effort = Effort {
            nodes: 30,
            steps: 15,
        };
        if let Some(steps) = prove(&mut r, &model, effort).filter(|steps| steps.len() > 3) {
            sweep_one(&model, &steps, &mut cases);
            proofs += 1;
        }
    }
    for _ in 0..8 {
        let (model, steps) = wide(&mut r);
        sweep_one(&model, &steps, &mut cases);
    }
    let (model, steps) = hint_chain(&mut r);
    sweep_one(&model, &steps, &mut cases);
    cases
}

fn sweep_one(model: &Model, steps: &[Step], cases: &mut Vec<Case>) {
    let written_model = write_model(model);
    let written_log = write_log(steps, model.bounds.len(), model.rows.len());
    let case = |model: &[i32], log: &[i32]| Case {
        old: None,
        model: model.to_vec(),
        log: log.to_vec(),
        places: PLACES,
    };
    for changed in at_limits(&written_model) {
        cases.push(case(&changed, &written_log.words));
    }
    for changed in at_limits(&written_log) {
        cases.push(case(&written_model.words, &changed));
    }
}

/// The words with one of them at an end of its range or past it.
fn at_limits(written: &Written) -> Vec<Vec<i32>> {
    let mut all = Vec::new();
    for (position, &(low, high)) in written.ranges.iter().enumerate() {
        let past = [low.checked_sub(1), high.checked_add(1)];
        let ends = [low, high, i32::MIN, i32::MAX];
        for word in past.into_iter().flatten().chain(ends) {
            let mut words = written.words.clone();
            words[position] = word;
            all.push(words);
        }
    }
    all
}
