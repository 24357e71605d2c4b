//! A small search that explains itself: it splits sets of values until rows conflict, and writes
//! down each conflict as an inference and each split as a deduction.

use crate::explain::{explain, fewer_premises};
use crate::random::Random;
use reference::{declared_sets, judge_deduction, Sets};
use tables::limits::PREMISES;
use tables::{at_least, at_most, equal, not_equal, Atom, Fact, Model, Step};

/// How far a search may go.
#[derive(Clone, Copy)]
pub struct Effort {
    pub nodes: usize,
    pub steps: usize,
}

/// A log that the model makes true, with its conclusion; nothing where the search gave up.
pub fn prove(r: &mut Random, model: &Model, effort: Effort) -> Option<Vec<Step>> {
    let mut search = Search::new(r, model, effort);
    match search.refute(&[], None) {
        Ok(cited) => {
            let cited = search.without_premises(cited);
            search.steps.push(Step::NoAssignment { cited });
            Some(search.steps)
        }
        Err(Stop::Solution(values)) => search.bound(values),
        Err(Stop::GaveUp) => None,
    }
}

enum Stop {
    /// An assignment that satisfies all rows.
    Solution(Vec<i32>),
    GaveUp,
}

struct Search<'a> {
    r: &'a mut Random,
    model: &'a Model,
    declared: Sets,
    effort: Effort,
    nodes: usize,
    steps: Vec<Step>,
    facts: Vec<Fact>,
    /// How many tries at narrowing each node makes.
    tries: usize,
}

impl<'a> Search<'a> {
    fn new(r: &'a mut Random, model: &'a Model, effort: Effort) -> Search<'a> {
        let tries = r.below(8);
        Search {
            r,
            model,
            declared: declared_sets(&model.bounds),
            effort,
            nodes: 0,
            steps: Vec::new(),
            facts: Vec::new(),
            tries,
        }
    }

    /// Shows a bound on some variable that the solution does not break.
    fn bound(mut self, mut values: Vec<i32>) -> Option<Vec<Step>> {
        let count = self.model.bounds.len();
        for variable in self.r.sample(count, count) {
            while values[variable] > self.model.bounds[variable].0 {
                let goal = at_least(variable, values[variable]);
                match self.refute(&[goal.negated()], Some(goal.negated())) {
                    Ok(cited) => return self.claim(goal, cited),
                    Err(Stop::Solution(better)) => values = better,
                    Err(Stop::GaveUp) => return None,
                }
            }
        }
        None
    }

    /// The same fact without its premises, which hold anyway: they only mention variables.
    fn without_premises(&mut self, cited: usize) -> usize {
        if self.facts[cited].premises.is_empty() {
            return cited;
        }
        let fact = Fact::new(&[], self.facts[cited].consequent);
        let step = Step::Deduction {
            fact: fact.clone(),
            hints: vec![cited],
        };
        self.push(step, fact)
    }

    fn claim(mut self, goal: Atom, cited: usize) -> Option<Vec<Step>> {
        self.facts[cited].consequent?;
        let cited = self.without_premises(cited);
        let less = if self.r.chance(30) {
            self.r.between(0, 3)
        } else {
            0
        };
        self.steps.push(Step::NeverBelow {
            variable: goal.variable,
            value: goal.value - less,
            cited,
        });
        Some(self.steps)
    }

    /// The number of a fact that rules out the path: premises out of the path, and the last atom,
    /// if one is named and needed, negated as consequent.
    fn refute(&mut self, path: &[Atom], last: Option<Atom>) -> Result<usize, Stop> {
        self.nodes += 1;
        let full = self.nodes > self.effort.nodes || self.steps.len() > self.effort.steps;
        if full || path.len() > PREMISES as usize {
            return Err(Stop::GaveUp);
        }
        self.idle_step();
        if let Some(number) = self.conflict(path, last) {
            return Ok(number);
        }
        let mut trail = path.to_vec();
        let mut hints = self.narrow(&mut trail);
        if !self.sets(&trail).any_empty() {
            match self.conflict(&trail, None) {
                Some(number) => hints.push(number),
                None => hints.extend(self.split(&trail)?),
            }
        }
        self.deduce(path, last, hints)
    }

    fn sets(&self, trail: &[Atom]) -> Sets {
        Sets::of_fact(&self.declared, &Fact::new(trail, None))
    }

    /// An inference by some row that rules out the trail.
    fn conflict(&mut self, trail: &[Atom], last: Option<Atom>) -> Option<usize> {
        let model = self.model;
        let others: Vec<Atom> = trail
            .iter()
            .copied()
            .filter(|atom| Some(*atom) != last)
            .collect();
        let count = model.rows.len();
        for row in self.r.sample(count, count) {
            let alone = self.infer(row, &others, None);
            let found = match last {
                Some(last) => alone.or_else(|| self.infer(row, &others, Some(last.negated()))),
                None => alone,
            };
            if let Some(fact) = found {
                return Some(self.push_inference(row, fact));
            }
        }
        None
    }

    fn infer(&mut self, row: usize, trail: &[Atom], consequent: Option<Atom>) -> Option<Fact> {
        let rows = &self.model.rows;
        explain(
            self.r,
            self.model,
            &self.declared,
            &rows[row],
            trail,
            consequent,
        )
    }

    /// Lets rows take values away; adds the atoms to the trail and returns the facts behind them.
    fn narrow(&mut self, trail: &mut Vec<Atom>) -> Vec<usize> {
        let mut hints = Vec::new();
        for _ in 0..self.tries {
            let row = self.r.below(self.model.rows.len());
            let variables = self.model.rows[row].variables();
            let variable = *self.r.pick(&variables);
            let sets = self.sets(trail);
            if sets.any_empty() {
                break;
            }
            let atom = self.guess(variable, sets.of(variable));
            if sets.satisfy(&atom) {
                continue;
            }
            if let Some(fact) = self.infer(row, trail, Some(atom)) {
                hints.push(self.push_inference(row, fact));
                trail.push(atom);
            }
        }
        hints
    }

    /// An atom that would take some values away.
    fn guess(&mut self, variable: usize, values: &[i32]) -> Atom {
        let value = *self.r.pick(values);
        match self.r.below(4) {
            0 => at_most(variable, value - 1),
            1 => at_least(variable, value + 1),
            _ => not_equal(variable, value),
        }
    }

    /// Splits the values of a variable in two and rules out both parts.
    fn split(&mut self, trail: &[Atom]) -> Result<Vec<usize>, Stop> {
        let sets = self.sets(trail);
        let open: Vec<usize> = (0..self.model.bounds.len())
            .filter(|&variable| sets.of(variable).len() > 1)
            .collect();
        if open.is_empty() {
            let values = (0..self.model.bounds.len()).map(|v| sets.of(v)[0]);
            return Err(Stop::Solution(values.collect()));
        }
        let variable = *self.r.pick(&open);
        let values = sets.of(variable);
        let branch = if self.r.chance(50) {
            equal(variable, *self.r.pick(values))
        } else {
            at_most(variable, values[self.r.below(values.len() - 1)])
        };
        let first = self.refute(&with(trail, branch), Some(branch))?;
        if self.facts[first].consequent.is_none() {
            return Ok(vec![first]);
        }
        let other = branch.negated();
        let last = self.r.chance(50).then_some(other);
        let second = self.refute(&with(trail, other), last)?;
        Ok(vec![first, second])
    }

    /// The deduction that takes the hints together.
    fn deduce(
        &mut self,
        path: &[Atom],
        last: Option<Atom>,
        mut hints: Vec<usize>,
    ) -> Result<usize, Stop> {
        let others: Vec<Atom> = path
            .iter()
            .copied()
            .filter(|atom| Some(*atom) != last)
            .collect();
        let full = Fact {
            premises: others,
            consequent: last.map(|atom| atom.negated()),
        };
        self.unused_hints(&mut hints);
        let passes =
            |fact: &Fact| judge_deduction(&self.declared, &self.facts, fact, &hints).is_ok();
        if !passes(&full) || full.premises.len() > PREMISES as usize {
            return Err(Stop::GaveUp);
        }
        let without = Fact {
            consequent: None,
            ..full.clone()
        };
        let kept = if passes(&without) { without } else { full };
        let fact = if self.r.chance(90) {
            fewer_premises(self.r, kept, passes)
        } else {
            kept
        };
        let step = Step::Deduction {
            fact: fact.clone(),
            hints,
        };
        Ok(self.push(step, fact))
    }

    /// Adds hints behind those that are needed.
    fn unused_hints(&mut self, hints: &mut Vec<usize>) {
        while self.r.chance(15) && hints.len() < 60 {
            hints.push(self.r.below(self.facts.len()));
        }
    }

    /// Now and then a step that nothing needs.
    fn idle_step(&mut self) {
        if self.r.chance(90) {
            return;
        }
        let row = self.r.below(self.model.rows.len());
        let variable = *self.r.pick(&self.model.rows[row].variables());
        let (low, high) = self.model.bounds[variable];
        let values: Vec<i32> = (low..=high).collect();
        let atom = self.guess(variable, &values);
        if let Some(fact) = self.infer(row, &[], Some(atom)) {
            self.push_inference(row, fact);
        }
    }

    fn push_inference(&mut self, row: usize, fact: Fact) -> usize {
        let step = Step::Inference {
            row,
            fact: fact.clone(),
        };
        self.push(step, fact)
    }

    fn push(&mut self, step: Step, fact: Fact) -> usize {
        self.steps.push(step);
        self.facts.push(fact);
        self.facts.len() - 1
    }
}

fn with(trail: &[Atom], atom: Atom) -> Vec<Atom> {
    [trail, &[atom]].concat()
}
