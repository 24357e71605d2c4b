//! A model and a log to be timed.

use tables::limits::LOG_WORDS;
use tables::{log_words, model_words, Fact, Kind, Model, Row, Step};

pub struct Scenario {
    pub name: String,
    pub old: Option<Vec<i32>>,
    pub model: Vec<i32>,
    pub log: Vec<i32>,
    pub steps: usize,
    /// The kind of answer that must come.
    pub kind: Kind,
}

/// A whole check that accepts.
pub fn checked(name: &str, model: &Model, steps: &[Step]) -> Scenario {
    Scenario {
        name: name.to_string(),
        old: None,
        model: model_words(model),
        log: log_words(steps),
        steps: steps.len(),
        kind: Kind::Accepted,
    }
}

/// The recheck of the same, where no row has changed.
pub fn unchanged(scenario: &Scenario, name: &str) -> Scenario {
    Scenario {
        name: name.to_string(),
        old: Some(scenario.model.clone()),
        model: scenario.model.clone(),
        log: scenario.log.clone(),
        steps: scenario.steps,
        kind: Kind::Carried,
    }
}

/// The number of the step that says "false" in a log that is `filled`.
pub const FALSEHOOD: usize = 0;

/// "False" first, then these steps, then one step as often as it fits or is wanted, then the
/// conclusion. The model gets a row that is false by itself.
pub fn filled(name: &str, mut model: Model, before: &[Step], step: Step, most: usize) -> Scenario {
    let mut steps = vec![Step::Inference {
        row: add_false_row(&mut model),
        fact: Fact::default(),
    }];
    steps.extend_from_slice(before);
    let conclusion = Step::NoAssignment { cited: FALSEHOOD };
    let taken = length(&steps) + length(std::slice::from_ref(&conclusion));
    let count = (LOG_WORDS - taken) / length(std::slice::from_ref(&step));
    steps.extend(vec![step; count.min(most)]);
    steps.push(conclusion);
    checked(name, &model, &steps)
}

/// The number of a row that no assignment meets.
pub fn add_false_row(model: &mut Model) -> usize {
    let (low, _) = model.bounds[0];
    model.rows.push(Row::linear(low - 1, &[(1, 0)]));
    model.rows.len() - 1
}

fn length(steps: &[Step]) -> usize {
    log_words(steps).len()
}

/// "1 variable", "8 variables".
pub fn many(count: usize, what: &str) -> String {
    let plural = if count == 1 { "" } else { "s" };
    format!("{count} {what}{plural}")
}
