//! The mixture: each source of a model and a log gives a handful of cases.

use crate::amend::amend;
use crate::chains::chains;
use crate::damage::{damage, extend, noise};
use crate::long::{hint_chain, long};
use crate::models::{any_row, small_model};
use crate::proofs::try_proof;
use crate::random::Random;
use crate::reshape::reshape;
use crate::walk::walk;
use crate::wide::{wide, widest};
use std::collections::VecDeque;
use tables::limits::{LOG_WORDS, MODEL_WORDS, PLACES, ROWS};
use tables::{log_words, model_words, write_log, write_model, Model, Step};

/// What is given to a check, or to a recheck where there is an old model.
#[derive(Clone, Debug)]
pub struct Case {
    pub old: Option<Vec<i32>>,
    pub model: Vec<i32>,
    pub log: Vec<i32>,
    /// How many places are lent.
    pub places: usize,
}

/// Cases without end; the same seed gives the same cases.
pub struct Cases {
    r: Random,
    batch: u64,
    queue: VecDeque<Case>,
}

impl Iterator for Cases {
    type Item = Case;

    fn next(&mut self) -> Option<Case> {
        while self.queue.is_empty() {
            self.fill();
        }
        self.queue.pop_front()
    }
}

impl Cases {
    pub fn new(seed: u64) -> Cases {
        Cases {
            r: Random::new(seed),
            batch: 0,
            queue: VecDeque::new(),
        }
    }

    /// Makes one source and puts its cases into the queue.
    fn fill(&mut self) {
        self.batch += 1;
        let r = &mut self.r;
        match self.batch % 8 {
            _ if self.batch % 500 == 7 => self.plain_only(widest),
            _ if self.batch % 100 == 3 => self.plain_only(long),
            0 | 4 => self.source(wide),
            1 => self.source(|r| {
                let model = small_model(r);
                let steps = walk(r, &model);
                (model, steps)
            }),
            2 if r.chance(20) => self.source(hint_chain),
            5 => self.source(chains),
            _ => self.proof(),
        }
    }

    /// A source that is dear: the case itself, one damaged form and one recheck.
    fn plain_only(&mut self, make: fn(&mut Random) -> (Model, Vec<Step>)) {
        let (model, steps) = make(&mut self.r);
        self.push(None, model_words(&model), log_words(&steps));
        self.damaged_log(&model, &steps);
        self.rechecked(&model, &steps);
    }

    /// A source that is cheap: the case itself and ten variants.
    fn source(&mut self, make: impl Fn(&mut Random) -> (Model, Vec<Step>)) {
        let (model, steps) = make(&mut self.r);
        self.push(None, model_words(&model), log_words(&steps));
        self.variants(&model, &steps, 10);
    }

    /// A proof, under a model with some rows that it does not need.
    fn proof(&mut self) {
        let Some((mut model, mut steps)) = try_proof(&mut self.r) else {
            return;
        };
        while self.r.chance(45) {
            let row = any_row(&mut self.r, &model);
            model.rows.push(row);
        }
        if self.r.chance(10) {
            self.rows_in_front(&mut model, &mut steps);
        }
        self.push(None, model_words(&model), log_words(&steps));
        self.variants(&model, &steps, 20);
    }

    /// Puts rows before those that are cited, so that high row numbers come too.
    fn rows_in_front(&mut self, model: &mut Model, steps: &mut [Step]) {
        let room = (ROWS as usize).saturating_sub(model.rows.len());
        let more = self.r.below(room + 1);
        for _ in 0..more {
            let row = any_row(&mut self.r, model);
            model.rows.insert(0, row);
        }
        for step in steps {
            if let Step::Inference { row, .. } = step {
                *row += more;
            }
        }
    }

    fn variants(&mut self, model: &Model, steps: &[Step], count: usize) {
        for _ in 0..count {
            match self.r.below(100) {
                0..=24 => self.damaged_log(model, steps),
                25..=39 => self.damaged_model(model, steps),
                40..=64 => self.reshaped(model, steps),
                65..=91 => self.rechecked(model, steps),
                92..=97 => self.lengths(model, steps),
                _ => self.noise(model),
            }
        }
    }

    fn push(&mut self, old: Option<Vec<i32>>, model: Vec<i32>, log: Vec<i32>) {
        let more = if self.r.chance(10) {
            self.r.below(50)
        } else {
            0
        };
        self.queue.push_back(Case {
            old,
            model,
            log,
            places: PLACES + more,
        });
    }

    fn damaged_log(&mut self, model: &Model, steps: &[Step]) {
        let written = write_log(steps, model.bounds.len(), model.rows.len());
        let log = match self.r.below(8) {
            0 => {
                let kept = self.r.below(steps.len() + 1);
                log_words(&steps[..kept])
            }
            1 => {
                let mut log = written.words;
                extend(&mut self.r, &mut log);
                log
            }
            _ => damage(&mut self.r, &written),
        };
        self.push(None, model_words(model), log);
    }

    fn damaged_model(&mut self, model: &Model, steps: &[Step]) {
        let words = match self.r.below(6) {
            0 => self.named_twice(model),
            1 => {
                let mut words = model_words(model);
                extend(&mut self.r, &mut words);
                words
            }
            _ => damage(&mut self.r, &write_model(model)),
        };
        self.push(None, words, log_words(steps));
    }

    /// A model with a variable twice in a row of different ones, and at times more amiss.
    fn named_twice(&mut self, model: &Model) -> Vec<i32> {
        let mut model = model.clone();
        let mut variables = self.r.sample(4, model.bounds.len());
        let index = self.r.below(variables.len());
        variables.insert(self.r.below(index + 1), variables[index]);
        let row = if self.r.chance(50) {
            tables::Row::all_different(&variables)
        } else {
            tables::Row::circuit(&variables)
        };
        model.rows.insert(self.r.below(model.rows.len() + 1), row);
        if self.r.chance(20) {
            return damage(&mut self.r, &write_model(&model));
        }
        model_words(&model)
    }

    fn reshaped(&mut self, model: &Model, steps: &[Step]) {
        let mut steps = steps.to_vec();
        for _ in 0..self.r.between(1, 2) {
            reshape(&mut self.r, model, &mut steps);
        }
        self.push(None, model_words(model), log_words(&steps));
    }

    fn rechecked(&mut self, model: &Model, steps: &[Step]) {
        let (old, new) = amend(&mut self.r, model, steps);
        let mut steps = steps.to_vec();
        if self.r.chance(20) {
            reshape(&mut self.r, model, &mut steps);
        }
        let written = write_log(&steps, model.bounds.len(), model.rows.len());
        let log = if self.r.chance(15) {
            damage(&mut self.r, &written)
        } else {
            written.words
        };
        self.push(Some(old), new, log);
    }

    /// Tables that are too long or too short.
    fn lengths(&mut self, model: &Model, steps: &[Step]) {
        let mut words = model_words(model);
        let mut log = log_words(steps);
        let mut places = PLACES;
        let old = self.r.chance(20).then(|| words.clone());
        match self.r.below(4) {
            0 => words.resize(self.longer(MODEL_WORDS), 0),
            1 => log.resize(self.longer(LOG_WORDS), 0),
            2 => places = PLACES - 1 - self.r.below(3),
            _ => places = self.r.below(PLACES + 1),
        }
        if self.r.chance(20) {
            log.resize(self.longer(LOG_WORDS), 1);
        }
        self.queue.push_back(Case {
            old,
            model: words,
            log,
            places,
        });
    }

    /// Just too long, or at times just not.
    fn longer(&mut self, limit: usize) -> usize {
        if self.r.chance(85) {
            limit + 1 + self.r.below(2)
        } else {
            limit
        }
    }

    fn noise(&mut self, model: &Model) {
        let words = if self.r.chance(70) {
            model_words(model)
        } else {
            noise(&mut self.r)
        };
        let old = self.r.chance(20).then(|| noise(&mut self.r));
        let log = noise(&mut self.r);
        self.push(old, words, log);
    }
}
