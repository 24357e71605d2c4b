//! 21 in an all-different row: the union and its size.

use super::log::Fact;
use super::page::{counted, line, Page};
use super::say::names;
use super::values::{Left, Values};

pub fn conflicts(page: &mut Page, variables: &[usize], fact: &Fact, left: &Left) -> bool {
    let named = |variable: &usize| fact.atoms().any(|atom| atom.variable == *variable);
    let (counting, others): (Vec<usize>, Vec<usize>) = variables.iter().partition(|&variable| named(variable));
    if counting.is_empty() {
        page.line(0, "Why: the fact names no variable of the row, and only those that it names count.");
    } else {
        let sets: Vec<&Values> = counting.iter().map(|&variable| &left[variable]).collect();
        let union = Values::union(&sets);
        page.line(0, "Why: the variables of the row that the fact names have enough values between them.");
        line!(page, 1, "they are {}: {}", names(&counting), counted(counting.len(), "variable"));
        line!(page, 1, "values left to them together: {union}, which is {}", counted(union.count() as usize, "value"),);
        line!(page, 1, "a conflict needs fewer values than variables, at most {}", counting.len() - 1);
        if union.count() < counting.len() as i64 {
            return true;
        }
    }
    if !others.is_empty() {
        line!(
            page,
            1,
            "not named, so they do not count: {}; a premise that holds anyway brings one in",
            names(&others),
        );
    }
    false
}
