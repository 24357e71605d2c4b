//! Going through the log step by step.

use crate::fault::{Fault, Slip};
use crate::read_step::read_step;
use crate::sets::Sets;
use crate::words::{Trouble, Words};
use crate::{conclusion, deduction, inference};
use tables::{Answer, Conclusion, Fact, Model, Step};

/// Which steps are judged for meaning.
pub enum Scope {
    /// All of them.
    Whole,
    /// Only inferences that cite a row marked as changed.
    Changed(Vec<bool>),
}

pub struct Outcome {
    pub answer: Answer,
    /// How many steps were judged for meaning.
    pub judged: u32,
    /// The rows that the inferences cite, as far as the log was read.
    pub cited_rows: Vec<usize>,
}

/// The number and the position of a refusal.
type Refusal = (u32, usize);

/// Takes the log through against a model that has been read well.
pub fn run(model: &Model, log: &[i32], places: &mut [u32], scope: &Scope, slip: Slip) -> Outcome {
    let mut run = Run {
        model,
        declared: Sets::declared(&model.bounds, slip),
        scope,
        slip,
        facts: Vec::new(),
        read: 0,
        judged: 0,
        cited_rows: Vec::new(),
    };
    let answer = run.steps(log, places);
    Outcome {
        answer,
        judged: run.count(&answer),
        cited_rows: run.cited_rows,
    }
}

struct Run<'a> {
    model: &'a Model,
    declared: Sets,
    scope: &'a Scope,
    slip: Slip,
    /// The facts of the steps passed so far, by number.
    facts: Vec<Fact>,
    read: u32,
    judged: u32,
    cited_rows: Vec<usize>,
}

impl Run<'_> {
    fn steps(&mut self, log: &[i32], places: &mut [u32]) -> Answer {
        let mut words = Words::new(log);
        loop {
            let number = self.facts.len();
            let start = words.at();
            if words.ended() {
                return self.ran_out(number, log.len());
            }
            let step = match read_step(&mut words, self.model, number, self.slip) {
                Ok(step) => step,
                Err(trouble) => return self.unreadable(trouble, number, start, log.len()),
            };
            self.read += 1;
            let verdict = self.judge(&step, &words);
            if self.is_placed(&step, verdict.is_ok()) {
                places[number] = self.place(start);
            }
            if let Err((cause, position)) = verdict {
                return Answer::refused(cause, self.named(number, cause), position);
            }
            match step {
                Step::Inference { fact, .. } | Step::Deduction { fact, .. } => {
                    self.facts.push(fact);
                }
                Step::NoAssignment { .. } => return self.concluded(Conclusion::NoAssignment),
                Step::NeverBelow {
                    variable,
                    value,
                    cited,
                } => return self.concluded(self.never_below(variable, value, cited)),
            }
        }
    }

    fn ran_out(&self, number: usize, length: usize) -> Answer {
        match self.slip {
            Some(Fault::RanOutAccepted) => self.concluded(Conclusion::NoAssignment),
            Some(Fault::TenStepIsLast) => Answer::refused(10, number.saturating_sub(1), length),
            _ => Answer::refused(10, number, length),
        }
    }

    fn unreadable(&self, trouble: Trouble, number: usize, start: usize, length: usize) -> Answer {
        match (trouble, self.slip) {
            (Trouble::Missing, Some(Fault::ElevenAsTen)) => Answer::refused(10, number, length),
            (Trouble::Missing, _) => Answer::refused(11, number, length),
            (Trouble::Outside(_), Some(Fault::TwelveAtStepStart)) => {
                Answer::refused(12, number, start)
            }
            (Trouble::Outside(position), _) => Answer::refused(12, number, position),
        }
    }

    /// The meaning of the step, where it is looked at, and then what comes after a conclusion.
    fn judge(&mut self, step: &Step, words: &Words) -> Result<(), Refusal> {
        if self.slip == Some(Fault::ThirteenBeforeTwentyFour) {
            self.ends_log(step, words)?;
        }
        if let Step::Inference { row, .. } = step {
            self.cited_rows.push(*row);
        }
        if self.is_judged(step) {
            self.judged += 1;
            self.hold_against_rule(step, words.at())?;
        }
        self.ends_log(step, words)
    }

    fn is_judged(&self, step: &Step) -> bool {
        match (self.scope, step) {
            (Scope::Whole, _) => {
                self.slip != Some(Fault::JudgesOnlyStepZero) || self.facts.is_empty()
            }
            (Scope::Changed(rows), Step::Inference { row, .. }) => rows[*row],
            (Scope::Changed(_), Step::Deduction { .. }) => {
                self.slip == Some(Fault::RecheckJudgesDeductions)
            }
            (Scope::Changed(_), _) => self.slip == Some(Fault::RecheckJudgesConclusion),
        }
    }

    /// 20 to 24. `end` is where the words of the step end.
    fn hold_against_rule(&mut self, step: &Step, end: usize) -> Result<(), Refusal> {
        match step {
            Step::Inference { row, fact } => {
                let row = &self.model.rows[*row];
                let judged = inference::judge(&self.declared, row, fact, self.slip);
                judged.map_err(|cause| (cause, 0))
            }
            Step::Deduction { fact, hints } => self.judge_deduction(fact, hints, end),
            Step::NoAssignment { cited } => {
                let fact = self.facts.get(*cited);
                fit(fact.is_some_and(|fact| conclusion::fits_no_assignment(fact, self.slip)))
            }
            Step::NeverBelow {
                variable,
                value,
                cited,
            } => {
                let fact = self.facts.get(*cited);
                fit(fact.is_some_and(|fact| {
                    conclusion::fits_never_below(fact, *variable, *value, self.slip)
                }))
            }
        }
    }

    fn judge_deduction(&self, fact: &Fact, hints: &[usize], end: usize) -> Result<(), Refusal> {
        let mut facts = self.facts.as_slice();
        let with_itself;
        if self.slip == Some(Fault::SelfCitation) {
            with_itself = [facts, std::slice::from_ref(fact)].concat();
            facts = &with_itself;
        }
        let judged = deduction::judge(&self.declared, facts, fact, hints, self.slip);
        judged.map_err(|(cause, index)| match cause {
            12 => (12, end - hints.len() + index),
            _ => (cause, index),
        })
    }

    /// 13: nothing may come after a conclusion.
    fn ends_log(&self, step: &Step, words: &Words) -> Result<(), Refusal> {
        let open = !is_conclusion(step) || words.ended();
        if open || self.slip == Some(Fault::WordsAfterConclusionAllowed) {
            return Ok(());
        }
        Err((13, words.at()))
    }

    fn named(&self, number: usize, cause: u32) -> usize {
        if cause == 13 && self.slip == Some(Fault::ThirteenStepIsNext) {
            return number + 1;
        }
        number
    }

    fn is_placed(&self, step: &Step, passed: bool) -> bool {
        match self.slip {
            Some(Fault::WritesNoPlaces) => false,
            Some(Fault::RefusedStepPlaced) => true,
            Some(Fault::ConclusionUnplaced) => passed && !is_conclusion(step),
            Some(Fault::UnjudgedUnplaced) => passed && self.is_judged(step),
            _ => passed,
        }
    }

    fn place(&self, start: usize) -> u32 {
        start as u32 + (self.slip == Some(Fault::PlaceOffByOne)) as u32
    }

    fn never_below(&self, variable: usize, claimed: i32, cited: usize) -> Conclusion {
        let value = match self.slip {
            Some(Fault::FactValueNamed) => {
                let fact = &self.facts[cited];
                fact.consequent.map_or(claimed, |atom| atom.value)
            }
            _ => claimed,
        };
        Conclusion::NeverBelow {
            variable: variable as u32,
            value,
        }
    }

    fn concluded(&self, conclusion: Conclusion) -> Answer {
        match self.scope {
            Scope::Changed(_) if self.slip != Some(Fault::CarriedCalledAccepted) => {
                Answer::carried(conclusion)
            }
            _ => Answer::accepted(conclusion),
        }
    }

    fn count(&self, answer: &Answer) -> u32 {
        let refused_judging = answer.is_refused() && answer.number >= 20;
        let refused_after = answer.number == 13 && matches!(self.scope, Scope::Whole);
        match self.slip {
            Some(Fault::JudgedMadeUp) => self.read,
            Some(Fault::JudgedWithoutRefused) => self.judged - refused_judging as u32,
            Some(Fault::ThirteenNotJudged) => self.judged - refused_after as u32,
            _ => self.judged,
        }
    }
}

fn is_conclusion(step: &Step) -> bool {
    matches!(step, Step::NoAssignment { .. } | Step::NeverBelow { .. })
}

fn fit(fits: bool) -> Result<(), Refusal> {
    if fits {
        Ok(())
    } else {
        Err((24, 0))
    }
}
