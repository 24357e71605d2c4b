//! What one more step costs early and late in a log.

use crate::measure::{measure, THOROUGH};
use crate::scenario::{checked, Scenario};
use crate::subjects::Subject;
use tables::{Fact, Model, Row, Step};

/// The slope between two logs of so many steps.
const EARLY: (usize, usize) = (20, 60);
const LATE: (usize, usize) = (3_000, 4_000);
/// A deduction is longer: this many steps fill the log.
const LATE_DEDUCTIONS: (usize, usize) = (2_200, 3_200);

pub fn print_cost_of_a_step(subjects: &[(&str, Subject)]) {
    println!("| Step | Subject | Around step 40 | Late | Late to early |");
    println!("|---|---|---|---|---|");
    print_kind("inference", inference, LATE, subjects);
    let name = "deduction that cites the first fact";
    print_kind(name, deduction, LATE_DEDUCTIONS, subjects);
}

fn print_kind(kind: &str, make: Make, range: (usize, usize), subjects: &[(&str, Subject)]) {
    let early = slopes(EARLY, make, subjects);
    let late = slopes(range, make, subjects);
    for (index, (name, _)) in subjects.iter().enumerate() {
        println!(
            "| {kind}, up to step {} | {name} | {:.1} ns | {:.1} ns | {:.2} |",
            range.1,
            early[index] * 1e9,
            late[index] * 1e9,
            late[index] / early[index]
        );
    }
}

type Make = fn() -> Step;

fn inference() -> Step {
    Step::Inference {
        row: 0,
        fact: Fact::default(),
    }
}

/// Cites the first fact, so that the way to it is the longest.
fn deduction() -> Step {
    Step::Deduction {
        fact: Fact::default(),
        hints: vec![0],
    }
}

fn slopes(range: (usize, usize), make: Make, subjects: &[(&str, Subject)]) -> Vec<f64> {
    let short = measure(&log(range.0, make), subjects, THOROUGH).seconds;
    let long = measure(&log(range.1, make), subjects, THOROUGH).seconds;
    let added = (range.1 - range.0) as f64;
    let pairs = short.iter().zip(&long);
    pairs.map(|(short, long)| (long - short) / added).collect()
}

fn log(count: usize, make: Make) -> Scenario {
    let model = Model {
        bounds: vec![(0, 0)],
        rows: vec![Row::linear(-1, &[(1, 0)])],
    };
    let mut steps = vec![inference()];
    steps.extend((1..count).map(|_| make()));
    steps.push(Step::NoAssignment { cited: 0 });
    checked("steps", &model, &steps)
}
