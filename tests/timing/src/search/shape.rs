//! What a log of the search is made of.

use crate::scenario::{filled, Scenario, FALSEHOOD};
use tables::{Fact, Model, Row, Step};

/// The rule that the repeated step is held against.
pub const KINDS: [&str; 5] = [
    "deduction",
    "linear",
    "all-different",
    "circuit",
    "cumulative",
];

/// Facts from a false row, then one step again and again.
#[derive(Clone, Debug)]
pub struct Shape {
    pub bounds: Vec<(i32, i32)>,
    /// The row of the repeated inference; with none the repeated step is a deduction.
    pub row: Option<Row>,
    pub fact: Fact,
    /// What a deduction may cite, and the numbers that it does cite. The last cites "false".
    pub cited: Vec<Fact>,
    pub hints: Vec<usize>,
}

impl Shape {
    pub fn scenario(&self) -> Scenario {
        let mut rows = vec![Row::linear(i32::MIN, &[(0, 0)])];
        let before: Vec<Step> = self.cited.iter().map(from_false_row).collect();
        let step = match &self.row {
            Some(row) => {
                rows.push(row.clone());
                Step::Inference {
                    row: 1,
                    fact: self.fact.clone(),
                }
            }
            None => {
                let cited = self.hints.iter().map(|hint| hint + 1);
                Step::Deduction {
                    fact: self.fact.clone(),
                    hints: cited.chain([FALSEHOOD]).collect(),
                }
            }
        };
        let model = Model {
            bounds: self.bounds.clone(),
            rows,
        };
        filled("search", model, &before, step, usize::MAX)
    }
}

fn from_false_row(fact: &Fact) -> Step {
    Step::Inference {
        row: 0,
        fact: fact.clone(),
    }
}
