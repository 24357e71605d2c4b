//! Proofs without end: small models and the logs that a search found for them.

use crate::models::small_model;
use crate::random::Random;
use crate::search::{prove, Effort};
use tables::{Model, Step};

/// A small model and an accepted log, or nothing where the search gave up or was too short.
pub fn try_proof(r: &mut Random) -> Option<(Model, Vec<Step>)> {
    let effort = Effort {
        nodes: 60,
        steps: if r.chance(5) { 600 } else { 60 },
    };
    let model = small_model(r);
    let steps = prove(r, &model, effort)?;
    // most short proofs are left out, there are many
    let dropped = steps.len() < 5 && r.chance(80);
    (!dropped).then_some((model, steps))
}

/// Proofs from a seed.
pub fn proofs(seed: u64) -> impl Iterator<Item = (Model, Vec<Step>)> {
    let mut r = Random::new(seed);
    std::iter::repeat_with(move || try_proof(&mut r)).flatten()
}
