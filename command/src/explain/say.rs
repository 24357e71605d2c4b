//! Models, rows, facts and steps as sentences.

use super::log::{Atom, Body, Fact, Relation, Step};
use super::model::{Model, ModelTable, Row};
use super::page::{counted, line, Page};
use super::values::{box_of, Stretch};
use std::collections::BTreeSet;

pub fn model(page: &mut Page, table: &ModelTable) {
    let Model { bounds, rows } = &table.model;
    let so_far = if table.fault.is_some() { ", as far as it can be read" } else { "" };
    let (variables, count) = (counted(bounds.len(), "variable"), counted(rows.len(), "row"));
    line!(page, 0, "The model{so_far}: {variables} and {count}.");
    let mut first = 0;
    while first < bounds.len() {
        let alike = bounds[first..].iter().take_while(|&&pair| pair == bounds[first]).count();
        let (low, high) = bounds[first];
        let names = match alike {
            1 => format!("x{first} is"),
            _ => format!("x{first} to x{} are each", first + alike - 1),
        };
        line!(page, 1, "{names} in {}", Stretch(low.into(), high.into()));
        first += alike;
    }
    for (number, row) in rows.iter().enumerate() {
        line!(page, 1, "row {number}, {}: {}", head(row), body(row));
    }
}

/// `cumulative of 5 activities`
fn head(row: &Row) -> String {
    match row {
        Row::Linear { terms, .. } => format!("linear of {}", counted(terms.len(), "term")),
        Row::AllDifferent { variables } => {
            format!("all-different of {}", counted(variables.len(), "variable"))
        }
        Row::Cumulative { activities, .. } if activities.len() == 1 => "cumulative of 1 activity".to_string(),
        Row::Cumulative { activities, .. } => {
            format!("cumulative of {} activities", activities.len())
        }
        Row::Circuit { variables } => {
            format!("circuit of {}", counted(variables.len(), "position"))
        }
    }
}

fn body(row: &Row) -> String {
    match row {
        Row::Linear { bound, terms } => format!("{} is at most {bound}", sum(terms)),
        Row::AllDifferent { variables } => format!("no two of {} are equal", names(variables)),
        Row::Cumulative { capacity, activities } => {
            let told = activities.iter().map(|a| format!("x{} (lasts {}, uses {})", a.start, a.duration, a.usage));
            let told: Vec<String> = told.collect();
            format!("at no time do those that run use more than {capacity}; starts {}", told.join(", "))
        }
        Row::Circuit { variables } => {
            format!("one round trip over all positions; the next ones after 0, 1, ... are {}", names(variables))
        }
    }
}

fn sum(terms: &[(i32, usize)]) -> String {
    let mut out = String::new();
    for (k, (coefficient, variable)) in terms.iter().enumerate() {
        let sign = match (k, *coefficient < 0) {
            (0, false) => "",
            (0, true) => "-",
            (_, false) => " + ",
            (_, true) => " - ",
        };
        match coefficient.unsigned_abs() {
            1 => out.push_str(&format!("{sign}x{variable}")),
            size => out.push_str(&format!("{sign}{size}*x{variable}")),
        }
    }
    out
}

pub fn names(variables: &[usize]) -> String {
    let names: Vec<String> = variables.iter().map(|variable| format!("x{variable}")).collect();
    names.join(", ")
}

/// `x4 is at most 7`
pub fn atom(atom: &Atom) -> String {
    let relation = match atom.relation {
        Relation::AtMost => "at most ",
        Relation::AtLeast => "at least ",
        Relation::Equal => "",
        Relation::NotEqual => "not ",
    };
    format!("x{} is {relation}{}", atom.variable, atom.value)
}

/// `if x4 is at most 7 and x5 is 2, then false`
pub fn fact(fact: &Fact) -> String {
    let premises: Vec<String> = fact.premises.iter().map(atom).collect();
    let consequent = fact.consequent.as_ref().map_or("false".to_string(), atom);
    match premises.len() {
        0 => format!("always {consequent}"),
        _ => format!("if {}, then {consequent}", premises.join(" and ")),
    }
}

/// How far the log was good.
pub fn passed(page: &mut Page, steps: usize) {
    match steps {
        0 => page.line(0, "No step has passed."),
        1 => page.line(0, "Step 0 has passed."),
        _ => line!(page, 0, "Steps 0 to {} have passed.", steps - 1),
    }
}

/// The step that fails, and what is left to the variables that it names.
pub fn step(page: &mut Page, model: &Model, number: usize, step: &Step) {
    let how = match &step.body {
        Body::Inference { row, .. } => format!(", from row {row}, {}", head(&model.rows[*row])),
        Body::Deduction { hints, .. } if hints.is_empty() => ", deduced without hints".to_string(),
        Body::Deduction { hints, .. } if hints.len() == 1 => {
            format!(", deduced from fact {}", hints[0])
        }
        Body::Deduction { hints, .. } => format!(", deduced from facts {}", numbers(hints)),
        Body::NoAssignment { cited } | Body::NeverBelow { cited, .. } => {
            format!(", concluded from fact {cited}")
        }
    };
    let what = match &step.body {
        Body::Inference { fact: told, .. } | Body::Deduction { fact: told, .. } => fact(told),
        Body::NoAssignment { .. } => "no assignment meets every row".to_string(),
        Body::NeverBelow { variable, value, .. } => format!("x{variable} is never below {value}"),
    };
    line!(page, 0, "step {number}{how}: {what}");
    line!(page, 1, "words {} of the log", Stretch(step.start as i64, step.end as i64 - 1));
    if let Some(fact) = step.fact() {
        left(page, model, step, fact);
    }
    page.line(0, "");
}

/// What the fact's premises and its negated consequent leave to the variables of the fact and of its row.
fn left(page: &mut Page, model: &Model, step: &Step, fact: &Fact) {
    let mut named: BTreeSet<usize> = fact.atoms().map(|atom| atom.variable).collect();
    if let Body::Inference { row, .. } = &step.body {
        named.extend(model.rows[*row].variables());
    }
    if named.is_empty() {
        return page.line(1, "It names no variable, so every declared value is left.");
    }
    page.line(
        1,
        match fact.consequent {
            None => "Left where the premises hold:",
            Some(_) => "Left where the premises hold and the consequent does not:",
        },
    );
    let values = box_of(model, fact);
    for variable in named {
        line!(page, 2, "x{variable}: {}", values[variable]);
    }
}

pub fn numbers(list: &[usize]) -> String {
    let list: Vec<String> = list.iter().map(|number| number.to_string()).collect();
    list.join(", ")
}
