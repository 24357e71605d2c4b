//! A search for logs that cost more: random ones, changed a little again and again.

mod change;
mod draw;
mod shape;

use crate::measure::{call, measure, processor_seconds, THOROUGH};
use crate::report::duration;
use crate::scenario::Scenario;
use crate::subjects::{self, Subject};
use generator::Random;
use shape::{Shape, KINDS};
use std::fs;
use std::path::Path;
use tables::limits::PLACES;

/// So many changes in a row that gain nothing, and the climb begins anew.
const PATIENCE: usize = 300;
/// A time is the least of so many calls.
const CALLS: usize = 3;
/// The dearest logs are written here, words and all.
const FOLDER: &str = "target/dearest";

/// What makes a log dear.
#[derive(Clone, Copy)]
enum Aim {
    Time,
    Ratio,
}

pub fn run(seconds: f64, seed: u64) {
    println!(
        "| Repeated step | Sought | Log words | Steps | Library | Fast | Library to fast | Logs tried |"
    );
    println!("|---|---|---|---|---|---|---|---|");
    let climbs = KINDS.len() * 2;
    let mut random = Random::new(seed);
    for kind in KINDS {
        for (aim, sought) in [(Aim::Time, "time"), (Aim::Ratio, "ratio")] {
            let (shape, tried) = climb(kind, aim, seconds / climbs as f64, &mut random);
            let log = shape.scenario();
            let times = measure(&log, &subjects::QUICK, THOROUGH);
            println!(
                "| {kind} | {sought} | {} | {} | {} | {} | {:.2} | {tried} |",
                log.log.len(),
                log.steps,
                duration(times.seconds[0]),
                duration(times.seconds[1]),
                times.ratios[1],
            );
            keep(&format!("{kind}-{sought}"), &shape, &log);
        }
    }
    println!();
    println!("The logs are in {FOLDER}.");
}

/// The dearest shape that was met in so many seconds, and how many were tried.
fn climb(kind: &str, aim: Aim, seconds: f64, random: &mut Random) -> (Shape, usize) {
    let begun = processor_seconds();
    let mut best = (0.0, Shape::draw(kind, random));
    let mut current = (0.0, best.1.clone());
    let (mut tried, mut in_vain) = (0, 0);
    while processor_seconds() - begun < seconds {
        let next = if in_vain > PATIENCE {
            (current.0, in_vain) = (0.0, 0);
            Shape::draw(kind, random)
        } else {
            current.1.changed(random)
        };
        let cost = cost(&next.scenario(), aim);
        tried += 1;
        in_vain += 1;
        if cost > current.0 {
            current = (cost, next);
            in_vain = 0;
        }
        if current.0 > best.0 {
            best = current.clone();
        }
    }
    (best.1, tried)
}

/// Nothing for a log that is not accepted: it ends early.
fn cost(log: &Scenario, aim: Aim) -> f64 {
    let [(_, library), (_, fast)] = subjects::QUICK;
    let Some(ours) = least_seconds(library, log) else {
        return 0.0;
    };
    match aim {
        Aim::Time => ours / log.log.len() as f64,
        Aim::Ratio => least_seconds(fast, log).map_or(f64::MAX, |theirs| ours / theirs),
    }
}

fn least_seconds(subject: Subject, log: &Scenario) -> Option<f64> {
    let mut places = [0; PLACES];
    let mut least = f64::MAX;
    for _ in 0..CALLS {
        let begun = processor_seconds();
        let answer = call(subject, log, &mut places);
        least = least.min(processor_seconds() - begun);
        if answer.kind != log.kind as u32 {
            return None;
        }
    }
    Some(least)
}

fn keep(name: &str, shape: &Shape, log: &Scenario) {
    let path = Path::new(FOLDER).join(name.replace(' ', "-"));
    let text = format!("{shape:#?}\nmodel {:?}\nlog {:?}\n", log.model, log.log);
    let written = fs::create_dir_all(FOLDER).and_then(|()| fs::write(&path, text));
    written.unwrap_or_else(|error| panic!("{}: {error}", path.display()));
}
