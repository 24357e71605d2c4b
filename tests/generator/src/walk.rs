//! Logs of random steps, most of which pass, up to one that may be refused.

use crate::conclude::conclude;
use crate::random::Random;
use reference::{declared_sets, judge_deduction, judge_inference, Sets};
use tables::limits::VALUE;
use tables::{Atom, Fact, Model, Relation, Step};

/// A random log over the model.
pub fn walk(r: &mut Random, model: &Model) -> Vec<Step> {
    let mut walk = Walk {
        r,
        model,
        declared: declared_sets(&model.bounds),
        steps: Vec::new(),
        facts: Vec::new(),
    };
    let wanted = walk.r.between(1, 7) as usize;
    for _ in 0..40 {
        if walk.steps.len() >= wanted || walk.one_step() {
            break;
        }
    }
    if !walk.facts.is_empty() && walk.r.chance(80) {
        walk.steps.push(conclude(walk.r, &walk.facts));
    }
    walk.steps
}

struct Walk<'a> {
    r: &'a mut Random,
    model: &'a Model,
    declared: Sets,
    steps: Vec<Step>,
    facts: Vec<Fact>,
}

impl Walk<'_> {
    /// Adds a step that passes, or now and then one that does not; true if it did the latter.
    fn one_step(&mut self) -> bool {
        let deduce = self.model.rows.is_empty() || (!self.facts.is_empty() && self.r.chance(40));
        let step = if deduce {
            self.deduction()
        } else {
            self.inference()
        };
        if self.passes(&step) {
            return self.sharpen(step);
        }
        let kept = self.r.chance(12);
        if kept {
            self.steps.push(step);
        }
        kept
    }

    fn passes(&self, step: &Step) -> bool {
        match step {
            Step::Inference { row, fact } => {
                judge_inference(&self.declared, &self.model.rows[*row], fact).is_ok()
            }
            Step::Deduction { fact, hints } => {
                judge_deduction(&self.declared, &self.facts, fact, hints).is_ok()
            }
            _ => false,
        }
    }

    /// Moves the value of the consequent as far as the step passes; the step one further is added
    /// too at times. True if it was.
    fn sharpen(&mut self, mut step: Step) -> bool {
        let Some(atom) = fact_of(&mut step).consequent else {
            self.push(step);
            return false;
        };
        let further = match atom.relation {
            Relation::AtMost => -1,
            Relation::AtLeast => 1,
            _ => self.r.between(0, 1) * 2 - 1,
        };
        for _ in 0..20 {
            let mut next = step.clone();
            let moved = &mut fact_of(&mut next).consequent;
            moved.iter_mut().for_each(|atom| atom.value += further);
            if !self.passes(&next) {
                self.push(step);
                let both = self.r.chance(15);
                if both {
                    self.steps.push(next);
                }
                return both;
            }
            step = next;
        }
        self.push(step);
        false
    }

    fn push(&mut self, mut step: Step) {
        self.facts.push(fact_of(&mut step).clone());
        self.steps.push(step);
    }

    fn inference(&mut self) -> Step {
        let row = self.r.below(self.model.rows.len());
        let variables = self.model.rows[row].variables();
        let fact = self.fact(&variables);
        Step::Inference { row, fact }
    }

    fn deduction(&mut self) -> Step {
        let variables: Vec<usize> = (0..self.model.bounds.len()).collect();
        let mut hints = Vec::new();
        if !self.facts.is_empty() {
            for _ in 0..self.r.below(5) {
                hints.push(self.r.below(self.facts.len()));
            }
        }
        let fact = if !hints.is_empty() && self.r.chance(60) {
            self.like(hints[0])
        } else {
            self.fact(&variables)
        };
        Step::Deduction { fact, hints }
    }

    /// A fact that a cited one may well imply: its premises, and more.
    fn like(&mut self, cited: usize) -> Fact {
        let mut fact = self.facts[cited].clone();
        if self.r.chance(50) {
            if let Some(atom) = fact.consequent.take() {
                fact.premises.push(atom.negated());
            }
        }
        let variable = self.r.below(self.model.bounds.len());
        if self.r.chance(30) {
            fact.premises.push(self.atom(variable));
        }
        fact.premises.truncate(16);
        fact.premises
            .retain(|atom| (-VALUE..=VALUE).contains(&atom.value));
        fact
    }

    fn fact(&mut self, variables: &[usize]) -> Fact {
        let count = self.r.below(variables.len().min(6) + 2);
        let mut premises = Vec::new();
        for _ in 0..count {
            let variable = self.variable(variables);
            premises.push(self.atom(variable));
        }
        let variable = self.variable(variables);
        let consequent = self.r.chance(60).then(|| self.atom(variable));
        Fact {
            premises,
            consequent,
        }
    }

    /// Mostly one of the given variables.
    fn variable(&mut self, variables: &[usize]) -> usize {
        if self.r.chance(95) {
            *self.r.pick(variables)
        } else {
            self.r.below(self.model.bounds.len())
        }
    }

    fn atom(&mut self, variable: usize) -> Atom {
        let (low, high) = self.model.bounds[variable];
        let relations = [
            Relation::AtMost,
            Relation::AtLeast,
            Relation::Equal,
            Relation::NotEqual,
            Relation::NotEqual,
        ];
        let value = if self.r.chance(90) {
            self.r.between(low, high)
        } else {
            self.r.between(low - 1, high + 1)
        };
        Atom {
            variable,
            relation: *self.r.pick(&relations),
            value: value.clamp(-VALUE, VALUE),
        }
    }
}

fn fact_of(step: &mut Step) -> &mut Fact {
    match step {
        Step::Inference { fact, .. } | Step::Deduction { fact, .. } => fact,
        _ => unreachable!("conclusions have no fact"),
    }
}
