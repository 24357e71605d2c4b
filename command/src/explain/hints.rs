//! 22 and 23: what the hints of a deduction do, one after the other.

use super::log::{Body, Fact, Step};
use super::model::Model;
use super::page::{line, Page};
use super::say;
use super::values::{box_of, declared, narrow, Left};

/// 22: the hint at the position has a premise that does not hold.
pub fn does_not_apply(page: &mut Page, model: &Model, steps: &[Step], step: &Step, position: u32) {
    let Some(mut run) = Run::of(model, steps, step) else {
        return page.disagrees();
    };
    let position = position as usize;
    if !run.apply(page, position) {
        return page.disagrees();
    }
    let Some((cited, fact)) = run.hint(position) else {
        return page.disagrees();
    };
    line!(page, 0, "Why: hint {position}, fact {cited}, does not apply. It says: {}", say::fact(fact));
    let mut failing = 0;
    for premise in &fact.premises {
        let values = &run.left[premise.variable];
        if !values.all(premise) {
            failing += 1;
            let told = say::atom(premise);
            line!(
                page,
                1,
                "its premise \"{told}\" does not hold for every value left: x{} has {values}",
                premise.variable
            );
        }
    }
    if failing == 0 {
        page.disagrees();
    }
}

/// 23: every hint was applied, and each variable still has values.
pub fn used_up(page: &mut Page, model: &Model, steps: &[Step], step: &Step) {
    let Some(mut run) = Run::of(model, steps, step) else {
        return page.disagrees();
    };
    if !run.apply(page, run.hints.len()) {
        return page.disagrees();
    }
    page.line(0, "Why: no hint says \"false\", and no variable is without a value. What is left after all hints:");
    let all = declared(model);
    let mut others = 0;
    for (variable, values) in run.left.iter().enumerate() {
        match *values == all[variable] {
            true => others += 1,
            false => line!(page, 1, "x{variable}: {values}"),
        }
    }
    match others {
        0 => {}
        _ if others == all.len() => page.line(1, "every variable: all declared values"),
        _ => line!(page, 1, "the other {others}: all declared values"),
    }
}

/// A deduction on its way through its hints.
struct Run<'a> {
    steps: &'a [Step],
    hints: &'a [usize],
    left: Left,
}

impl<'a> Run<'a> {
    fn of(model: &Model, steps: &'a [Step], step: &'a Step) -> Option<Run<'a>> {
        match &step.body {
            Body::Deduction { fact, hints } => Some(Run { steps, hints, left: box_of(model, fact) }),
            _ => None,
        }
    }

    /// The number and the fact of a hint.
    fn hint(&self, index: usize) -> Option<(usize, &'a Fact)> {
        let cited = *self.hints.get(index)?;
        Some((cited, self.steps.get(cited)?.fact()?))
    }

    /// Applies the first hints and says what each leaves; false where one fails or ends the step.
    fn apply(&mut self, page: &mut Page, count: usize) -> bool {
        if count > 0 {
            page.line(0, "The hints that apply, in order:");
        }
        for index in 0..count {
            let Some((cited, fact)) = self.hint(index) else {
                return false;
            };
            let holds = fact.premises.iter().all(|premise| self.left[premise.variable].all(premise));
            let Some(consequent) = fact.consequent.filter(|_| holds) else {
                return false;
            };
            narrow(&mut self.left, &consequent);
            let (variable, told) = (consequent.variable, say::fact(fact));
            line!(page, 1, "hint {index}, fact {cited}: {told}; leaves x{variable} {}", self.left[variable]);
            if self.left[variable].is_empty() {
                return false;
            }
        }
        true
    }
}
