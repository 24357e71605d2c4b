//! The words of a model and of a log, each with the range that it may lie in.
//!
//! The ranges let the damage reach each limit and one past it without reading a table.

use crate::limits::{
    CAPACITY, COEFFICIENT, DURATION, HINTS, PREMISES, ROWS, ROW_LENGTH, USAGE, VALUE, VARIABLES,
};
use crate::{Atom, Fact, Model, Row, Step};

/// Words and, for each, the smallest and the largest that may stand there.
#[derive(Clone, Debug, Default)]
pub struct Written {
    pub words: Vec<i32>,
    pub ranges: Vec<(i32, i32)>,
}

pub fn model_words(model: &Model) -> Vec<i32> {
    write_model(model).words
}

pub fn log_words(steps: &[Step]) -> Vec<i32> {
    write_log(steps, VARIABLES as usize, ROWS as usize).words
}

pub fn write_model(model: &Model) -> Written {
    let mut out = Written::default();
    out.put(model.bounds.len() as i32, 1, VARIABLES);
    for &(low, high) in &model.bounds {
        out.put(low, -VALUE, VALUE);
        out.put(high, low, VALUE);
    }
    out.put(model.rows.len() as i32, 0, ROWS);
    for row in &model.rows {
        out.row(row, model.bounds.len());
    }
    out
}

/// The ranges are right for a log over that many variables and rows.
pub fn write_log(steps: &[Step], variables: usize, rows: usize) -> Written {
    let mut out = Written::default();
    for (number, step) in steps.iter().enumerate() {
        out.step(step, number, variables, rows);
    }
    out
}

impl Written {
    fn put(&mut self, word: i32, low: i32, high: i32) {
        self.words.push(word);
        self.ranges.push((low, high));
    }

    /// A number below `count`.
    fn number(&mut self, word: usize, count: usize) {
        self.put(word as i32, 0, count as i32 - 1);
    }

    fn row(&mut self, row: &Row, variables: usize) {
        match row {
            Row::Linear { bound, terms } => {
                self.head(1, terms.len(), 1);
                self.put(*bound, i32::MIN, i32::MAX);
                for term in terms {
                    self.put(term.coefficient, -COEFFICIENT, COEFFICIENT);
                    self.number(term.variable, variables);
                }
            }
            Row::AllDifferent { variables: list } => self.list(2, list, variables),
            Row::Cumulative {
                capacity,
                activities,
            } => {
                self.head(3, activities.len(), 1);
                self.put(*capacity, 0, CAPACITY);
                for activity in activities {
                    self.number(activity.start, variables);
                    self.put(activity.duration, 1, DURATION);
                    self.put(activity.usage, 0, USAGE);
                }
            }
            Row::Circuit { variables: list } => self.list(4, list, variables),
        }
    }

    fn head(&mut self, kind: i32, length: usize, least: i32) {
        self.put(kind, 1, 4);
        self.put(length as i32, least, ROW_LENGTH);
    }

    fn list(&mut self, kind: i32, list: &[usize], variables: usize) {
        self.head(kind, list.len(), 2);
        for &variable in list {
            self.number(variable, variables);
        }
    }

    fn step(&mut self, step: &Step, number: usize, variables: usize, rows: usize) {
        match step {
            Step::Inference { row, fact } => {
                self.put(1, 1, 4);
                self.number(*row, rows);
                self.fact(fact, variables);
            }
            Step::Deduction { fact, hints } => {
                self.put(2, 1, 4);
                self.fact(fact, variables);
                self.put(hints.len() as i32, 0, HINTS);
                for &hint in hints {
                    self.number(hint, number);
                }
            }
            Step::NoAssignment { cited } => {
                self.put(3, 1, 4);
                self.number(*cited, number);
            }
            Step::NeverBelow {
                variable,
                value,
                cited,
            } => {
                self.put(4, 1, 4);
                self.number(*variable, variables);
                self.put(*value, -VALUE, VALUE);
                self.number(*cited, number);
            }
        }
    }

    fn fact(&mut self, fact: &Fact, variables: usize) {
        self.put(fact.premises.len() as i32, 0, PREMISES);
        for premise in &fact.premises {
            self.atom(premise, variables);
        }
        self.put(fact.consequent.is_some() as i32, 0, 1);
        if let Some(consequent) = &fact.consequent {
            self.atom(consequent, variables);
        }
    }

    fn atom(&mut self, atom: &Atom, variables: usize) {
        self.number(atom.variable, variables);
        self.put(atom.relation as i32, 1, 4);
        self.put(atom.value, -VALUE, VALUE);
    }
}
