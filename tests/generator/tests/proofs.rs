//! What the generator promises of its logs.

use generator::{proofs, Case, Cases};
use reference::{declared_sets, judge_deduction};
use tables::limits::PLACES;
use tables::{log_words, model_words, Fact, Model, Relation, Row, Step};

const PROOFS: usize = 3_000;

#[test]
fn the_same_seed_gives_the_same_cases() {
    let list = |seed| -> Vec<Case> { Cases::new(seed).take(500).collect() };
    let words = |cases: &[Case]| -> Vec<Vec<i32>> { cases.iter().map(|c| c.log.clone()).collect() };
    assert_eq!(words(&list(5)), words(&list(5)));
    assert_ne!(words(&list(5)), words(&list(6)));
}

#[test]
fn all_proofs_are_accepted() {
    for (model, steps) in proofs(31).take(PROOFS) {
        let (model, log) = (model_words(&model), log_words(&steps));
        let answer = reference::check(&model, &log, &mut vec![0; PLACES]);
        assert!(answer.is_accepted(), "{answer:?} for {model:?}, {log:?}");
    }
}

/// What the proofs are made of, counted by proof.
#[derive(Debug, Default)]
struct Makeup {
    conclusions: [usize; 2],
    kinds: [usize; 4],
    holes: usize,
    negative_coefficients: usize,
    unused_hints: usize,
    unused_steps: usize,
    many_hints: usize,
}

impl Makeup {
    fn add(&mut self, model: &Model, steps: &[Step]) {
        let concludes_4 = matches!(steps.last(), Some(Step::NeverBelow { .. }));
        self.conclusions[concludes_4 as usize] += 1;
        let rows: Vec<&Row> = steps
            .iter()
            .filter_map(|step| row_of(model, step))
            .collect();
        for kind in 0..4 {
            self.kinds[kind] += rows.iter().any(|row| kind_of(row) == kind) as usize;
        }
        self.holes += facts(steps).iter().any(has_hole) as usize;
        self.negative_coefficients += rows.iter().any(|row| is_negative(row)) as usize;
        self.unused_hints += has_unused_hint(model, steps) as usize;
        self.unused_steps += has_unused_step(steps) as usize;
        self.many_hints += steps.iter().any(|step| hints(step).len() > 4) as usize;
    }

    fn least(&self) -> usize {
        let others = [
            self.holes,
            self.negative_coefficients,
            self.unused_hints,
            self.unused_steps,
            self.many_hints,
        ];
        let all = self.conclusions.iter().chain(&self.kinds).chain(&others);
        *all.min().unwrap()
    }
}

fn row_of<'a>(model: &'a Model, step: &Step) -> Option<&'a Row> {
    match step {
        Step::Inference { row, .. } => Some(&model.rows[*row]),
        _ => None,
    }
}

fn kind_of(row: &Row) -> usize {
    match row {
        Row::Linear { .. } => 0,
        Row::AllDifferent { .. } => 1,
        Row::Cumulative { .. } => 2,
        Row::Circuit { .. } => 3,
    }
}

fn is_negative(row: &Row) -> bool {
    matches!(row, Row::Linear { terms, .. } if terms.iter().any(|term| term.coefficient < 0))
}

fn facts(steps: &[Step]) -> Vec<Fact> {
    let fact = |step: &Step| match step {
        Step::Inference { fact, .. } | Step::Deduction { fact, .. } => Some(fact.clone()),
        _ => None,
    };
    steps.iter().filter_map(fact).collect()
}

fn has_hole(fact: &Fact) -> bool {
    let mut premises = fact.premises.iter();
    premises.any(|atom| atom.relation == Relation::NotEqual)
}

fn hints(step: &Step) -> &[usize] {
    match step {
        Step::Deduction { hints, .. } => hints,
        _ => &[],
    }
}

/// Whether some deduction passes without its last hint.
fn has_unused_hint(model: &Model, steps: &[Step]) -> bool {
    let declared = declared_sets(&model.bounds);
    let facts = facts(steps);
    steps.iter().any(|step| match step {
        Step::Deduction { fact, hints } => {
            let fewer = &hints[..hints.len() - 1];
            judge_deduction(&declared, &facts, fact, fewer).is_ok()
        }
        _ => false,
    })
}

/// Whether some step is never named.
fn has_unused_step(steps: &[Step]) -> bool {
    let named = |number: usize| {
        steps.iter().any(|step| match step {
            Step::NoAssignment { cited } | Step::NeverBelow { cited, .. } => *cited == number,
            _ => hints(step).contains(&number),
        })
    };
    (0..steps.len() - 1).any(|number| !named(number))
}

#[test]
fn proofs_are_of_all_kinds() {
    let mut makeup = Makeup::default();
    for (model, steps) in proofs(32).take(PROOFS) {
        makeup.add(&model, &steps);
    }
    println!("{PROOFS} proofs: {makeup:?}");
    assert!(makeup.least() >= 100, "{makeup:?}");
}
