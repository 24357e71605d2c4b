//! Going through the log step by step.

use crate::cursor::{Cursor, Trouble};
use crate::domains::Domains;
use crate::model::Shape;
use crate::step::{cited_fact, read, Fact, Step};
use crate::{all_different, circuit, cumulative, linear};
use tables::{Answer, Conclusion};

pub struct Run<'a> {
    model: &'a [i32],
    shape: &'a Shape,
    log: &'a [i32],
    /// The changed rows of a recheck; nothing in a whole check.
    changed: Option<u64>,
    domains: Domains,
    judged: u32,
}

type Refusal = (u32, usize);

impl<'a> Run<'a> {
    pub fn new(model: &'a [i32], shape: &'a Shape, log: &'a [i32], changed: Option<u64>) -> Self {
        Run {
            model,
            shape,
            log,
            changed,
            domains: Domains::new(shape.bounds(model)),
            judged: 0,
        }
    }

    /// The answer and the number of judged steps.
    pub fn answer(mut self, places: &mut [u32]) -> (Answer, u32) {
        let answer = self.steps(places);
        (answer, self.judged)
    }

    fn steps(&mut self, places: &mut [u32]) -> Answer {
        let mut cursor = Cursor {
            table: self.log,
            at: 0,
        };
        let mut number = 0;
        loop {
            if cursor.ended() {
                return Answer::refused(10, number, cursor.at);
            }
            let start = cursor.at;
            let step = match read(&mut cursor, self.shape, number) {
                Ok(step) => step,
                Err(Trouble::Missing) => return Answer::refused(11, number, self.log.len()),
                Err(Trouble::Outside) => return Answer::refused(12, number, cursor.at),
            };
            if let Err((cause, position)) = self.judge(&step, places) {
                return Answer::refused(cause, number, position);
            }
            let conclusion = conclusion(&step);
            if conclusion.is_some() && !cursor.ended() {
                return Answer::refused(13, number, cursor.at);
            }
            places[number] = start as u32;
            if let Some(conclusion) = conclusion {
                return self.concluded(conclusion);
            }
            number += 1;
        }
    }

    fn concluded(&self, conclusion: Conclusion) -> Answer {
        match self.changed {
            Some(_) => Answer::carried(conclusion),
            None => Answer::accepted(conclusion),
        }
    }

    fn judge(&mut self, step: &Step, places: &[u32]) -> Result<(), Refusal> {
        let judged = match (self.changed, step) {
            (None, _) => true,
            (Some(rows), Step::Inference { row, .. }) => rows >> row & 1 == 1,
            _ => false,
        };
        if !judged {
            return Ok(());
        }
        self.judged += 1;
        match step {
            Step::Inference { row, fact } => self.inference(*row, fact),
            Step::Deduction { fact, hints } => self.deduction(fact, hints, places),
            Step::NoAssignment { cited } => {
                let fact = cited_fact(self.log, places[*cited]);
                fit(fact.premises.is_empty() && fact.consequent.is_empty())
            }
            Step::NeverBelow {
                variable,
                value,
                cited,
            } => {
                let fact = cited_fact(self.log, places[*cited]);
                fit(fact.premises.is_empty() && says(fact.consequent, *variable, *value))
            }
        }
    }

    fn inference(&mut self, row: usize, fact: &Fact) -> Result<(), Refusal> {
        if !self.domains.set_up(fact) {
            return Err((20, 0));
        }
        let row = self.shape.row(self.model, row);
        let conflicts = match row[0] {
            1 => linear::conflicts(row, &self.domains),
            2 => all_different::conflicts(row, &self.domains),
            3 => cumulative::conflicts(row, &self.domains),
            _ => circuit::conflicts(row, &self.domains),
        };
        if conflicts {
            Ok(())
        } else {
            Err((21, 0))
        }
    }

    fn deduction(&mut self, fact: &Fact, hints: &[i32], places: &[u32]) -> Result<(), Refusal> {
        if !self.domains.set_up(fact) {
            return Err((20, 0));
        }
        for (index, &hint) in hints.iter().enumerate() {
            let cited = cited_fact(self.log, places[hint as usize]);
            let mut premises = cited.premises.chunks_exact(3);
            if !premises.all(|premise| self.domains.satisfy(premise)) {
                return Err((22, index));
            }
            if cited.consequent.is_empty() || !self.domains.narrow(cited.consequent) {
                return Ok(());
            }
        }
        Err((23, 0))
    }
}

/// What the step concludes, if it is a conclusion.
fn conclusion(step: &Step) -> Option<Conclusion> {
    match *step {
        Step::NoAssignment { .. } => Some(Conclusion::NoAssignment),
        Step::NeverBelow {
            variable, value, ..
        } => Some(Conclusion::NeverBelow {
            variable: variable as u32,
            value,
        }),
        _ => None,
    }
}

/// Whether the consequent says "at least" on the variable with a value at least the claimed one.
fn says(consequent: &[i32], variable: usize, claimed: i32) -> bool {
    match *consequent {
        [on, 2, value] => on as usize == variable && value >= claimed,
        _ => false,
    }
}

fn fit(fits: bool) -> Result<(), Refusal> {
    if fits {
        Ok(())
    } else {
        Err((24, 0))
    }
}
