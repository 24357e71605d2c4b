//! Deductions over facts of any kind: the model has a row that is false by itself, so that every
//! fact whose box is not empty passes as an inference.

use crate::conclude::conclude;
use crate::random::Random;
use reference::{declared_sets, judge_deduction, judge_inference, Sets};
use tables::limits::{HINTS, PREMISES};
use tables::{Atom, Fact, Model, Relation, Row, Step};

/// A model with that row, random facts, and deductions that lead through them.
pub fn chains(r: &mut Random) -> (Model, Vec<Step>) {
    let count = r.between(1, 4);
    let bounds = (0..count)
        .map(|_| {
            let low = r.between(-5, 5);
            (low, low + r.between(1, 11))
        })
        .collect();
    let model = Model {
        bounds,
        rows: vec![Row::linear(-1, &[(0, 0)])],
    };
    let mut chains = Chains {
        declared: declared_sets(&model.bounds),
        model: &model,
        r,
        steps: Vec::new(),
        facts: Vec::new(),
    };
    chains.infer_facts();
    let wanted = chains.r.between(1, 6);
    for _ in 0..wanted {
        if chains.deduce() {
            break;
        }
    }
    let Chains {
        mut steps, facts, ..
    } = chains;
    steps.push(conclude(r, &facts));
    (model, steps)
}

struct Chains<'a> {
    r: &'a mut Random,
    model: &'a Model,
    declared: Sets,
    steps: Vec<Step>,
    facts: Vec<Fact>,
}

impl Chains<'_> {
    fn infer_facts(&mut self) {
        let wanted = self.r.between(4, 24) as usize;
        while self.facts.len() < wanted {
            let most = self.r.below(3);
            let consequent = self.r.chance(95).then(|| self.atom());
            let premises = self.atoms(most);
            let fact = Fact {
                premises,
                consequent,
            };
            if judge_inference(&self.declared, &self.model.rows[0], &fact).is_ok() {
                self.facts.push(fact.clone());
                self.steps.push(Step::Inference { row: 0, fact });
            }
        }
    }

    fn atoms(&mut self, count: usize) -> Vec<Atom> {
        (0..count).map(|_| self.atom()).collect()
    }

    fn atom(&mut self) -> Atom {
        let variable = self.r.below(self.model.bounds.len());
        let (low, high) = self.model.bounds[variable];
        let relations = [
            Relation::AtMost,
            Relation::AtLeast,
            Relation::Equal,
            Relation::NotEqual,
            Relation::NotEqual,
            Relation::NotEqual,
        ];
        Atom {
            variable,
            relation: *self.r.pick(&relations),
            value: self.r.between(low, high),
        }
    }

    /// Adds a deduction; true if it is refused and so is the last.
    fn deduce(&mut self) -> bool {
        let many = self.r.chance(20);
        let count = self.r.below(if many { PREMISES as usize } else { 4 } + 1);
        let consequent = self.r.chance(50).then(|| self.atom());
        let premises = self.atoms(count);
        let fact = Fact {
            premises,
            consequent,
        };
        let hints = self.follow(&fact);
        let passes = judge_deduction(&self.declared, &self.facts, &fact, &hints).is_ok();
        if passes || self.r.chance(30) {
            let step = Step::Deduction {
                fact: fact.clone(),
                hints,
            };
            self.steps.push(step);
            self.facts.push(fact);
            return !passes;
        }
        false
    }

    /// Hints that apply and narrow, one after the other, and at times one that need not.
    fn follow(&mut self, fact: &Fact) -> Vec<usize> {
        let mut sets = Sets::of_fact(&self.declared, fact);
        let mut hints = Vec::new();
        while hints.len() < HINTS as usize && !sets.any_empty() {
            let useful: Vec<usize> = (0..self.facts.len())
                .filter(|&number| narrows(&self.facts[number], &sets))
                .collect();
            if useful.is_empty() {
                break;
            }
            let hint = if self.r.chance(96) {
                *self.r.pick(&useful)
            } else {
                self.r.below(self.facts.len())
            };
            hints.push(hint);
            match &self.facts[hint].consequent {
                Some(consequent) => sets.narrow(consequent),
                None => break,
            }
        }
        hints
    }
}

fn narrows(fact: &Fact, sets: &Sets) -> bool {
    let applies = fact.premises.iter().all(|premise| sets.satisfy(premise));
    applies && !fact.consequent.is_some_and(|atom| sets.satisfy(&atom))
}
