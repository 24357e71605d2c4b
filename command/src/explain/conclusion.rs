//! 24: what the cited fact says, and what the conclusion needs.

use super::log::{Body, Fact, Relation, Step};
use super::page::{counted, line, Page};
use super::say;

pub fn explain(page: &mut Page, steps: &[Step], step: &Step) {
    let cited = match step.body {
        Body::NoAssignment { cited } | Body::NeverBelow { cited, .. } => cited,
        _ => return page.disagrees(),
    };
    let Some(fact) = steps.get(cited).and_then(Step::fact) else {
        return page.disagrees();
    };
    page.line(0, "Why: the cited fact does not say what is concluded.");
    line!(page, 1, "fact {cited} says: {}", say::fact(fact));
    let needed = match step.body {
        Body::NeverBelow { variable, value, .. } => format!("always x{variable} is at least {value} or a larger value"),
        _ => "always false".to_string(),
    };
    line!(page, 1, "the conclusion needs a fact without premises: {needed}");
    let wrong = faults(fact, &step.body);
    if wrong.is_empty() {
        return page.disagrees();
    }
    line!(page, 1, "what does not fit: {}", wrong.join("; "));
}

fn faults(fact: &Fact, conclusion: &Body) -> Vec<String> {
    let mut wrong = Vec::new();
    if !fact.premises.is_empty() {
        wrong.push(format!("it has {}", counted(fact.premises.len(), "premise")));
    }
    let fits = match (conclusion, &fact.consequent) {
        (Body::NeverBelow { variable, value, .. }, Some(atom)) => {
            atom.relation == Relation::AtLeast && atom.variable == *variable && atom.value >= i64::from(*value)
        }
        (Body::NeverBelow { .. }, None) => false,
        (_, consequent) => consequent.is_none(),
    };
    if !fits {
        let says = fact.consequent.as_ref().map_or("false".to_string(), say::atom);
        wrong.push(format!("its consequent is \"{says}\""));
    }
    wrong
}
