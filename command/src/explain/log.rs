//! The log table, read as far as it goes.

use super::model::{Model, VALUE};
use super::reader::{Expected, Fault, Reader};

const PREMISES: i64 = 16;
const HINTS: i64 = 64;

#[derive(Clone, Copy, PartialEq, Eq)]
pub enum Relation {
    AtMost,
    AtLeast,
    Equal,
    NotEqual,
}

/// The value is wider than a word, for negations at the edge.
#[derive(Clone, Copy)]
pub struct Atom {
    pub variable: usize,
    pub relation: Relation,
    pub value: i64,
}

impl Atom {
    pub fn negated(self) -> Atom {
        let (relation, value) = match self.relation {
            Relation::AtMost => (Relation::AtLeast, self.value + 1),
            Relation::AtLeast => (Relation::AtMost, self.value - 1),
            Relation::Equal => (Relation::NotEqual, self.value),
            Relation::NotEqual => (Relation::Equal, self.value),
        };
        Atom { relation, value, ..self }
    }
}

/// The premises give the consequent; none means "false".
pub struct Fact {
    pub premises: Vec<Atom>,
    pub consequent: Option<Atom>,
}

impl Fact {
    pub fn atoms(&self) -> impl Iterator<Item = &Atom> {
        self.premises.iter().chain(&self.consequent)
    }
}

pub enum Body {
    Inference { row: usize, fact: Fact },
    Deduction { fact: Fact, hints: Vec<usize> },
    NoAssignment { cited: usize },
    NeverBelow { variable: usize, value: i32, cited: usize },
}

pub struct Step {
    /// The position of its first word, and of the one behind its last.
    pub start: usize,
    pub end: usize,
    pub body: Body,
}

impl Step {
    pub fn fact(&self) -> Option<&Fact> {
        match &self.body {
            Body::Inference { fact, .. } | Body::Deduction { fact, .. } => Some(fact),
            Body::NoAssignment { .. } | Body::NeverBelow { .. } => None,
        }
    }
}

/// The steps that can be read, what each word is, and what is wrong at the end.
pub struct LogTable {
    pub steps: Vec<Step>,
    pub trail: Vec<Expected>,
    pub fault: Option<Fault>,
}

pub fn read_log(words: &[i32], model: &Model) -> LogTable {
    let mut reader = Reader::new(words);
    let mut steps = Vec::new();
    let fault = loop {
        let start = reader.at();
        let body = match read_step(&mut reader, steps.len(), model) {
            Ok(body) => body,
            Err(fault) => break Some(fault),
        };
        let concludes = matches!(body, Body::NoAssignment { .. } | Body::NeverBelow { .. });
        let end = reader.at();
        steps.push(Step { start, end, body });
        if concludes {
            break (!reader.at_end()).then_some(Fault::Surplus);
        }
    };
    LogTable { steps, trail: reader.trail, fault }
}

fn read_step(reader: &mut Reader, step: usize, model: &Model) -> Result<Body, Fault> {
    let variables = model.bounds.len();
    let kinds = "1 inference, 2 deduction, 3 or 4 conclusion";
    let cited = format!("the number of the fact that step {step} concludes from");
    Ok(match reader.take(format!("the kind of step {step}: {kinds}"), 1, 4)? {
        1 => Body::Inference {
            row: reader.number(format!("the row of step {step}"), model.rows.len())?,
            fact: read_fact(reader, step, variables)?,
        },
        2 => Body::Deduction { fact: read_fact(reader, step, variables)?, hints: read_hints(reader, step)? },
        3 => Body::NoAssignment { cited: reader.number(cited, step)? },
        _ => Body::NeverBelow {
            variable: reader.number(format!("the variable of step {step}"), variables)?,
            value: reader.take(format!("the claimed value of step {step}"), -VALUE, VALUE)?,
            cited: reader.number(cited, step)?,
        },
    })
}

fn read_fact(reader: &mut Reader, step: usize, variables: usize) -> Result<Fact, Fault> {
    let count = reader.take(format!("p, the number of premises of step {step}"), 0, PREMISES)?;
    let mut premises = Vec::new();
    for k in 0..count {
        premises.push(read_atom(reader, &format!("premise {k} of step {step}"), variables)?);
    }
    let consequent = match reader.take(format!("q, the number of consequents of step {step}"), 0, 1)? {
        0 => None,
        _ => Some(read_atom(reader, &format!("the consequent of step {step}"), variables)?),
    };
    Ok(Fact { premises, consequent })
}

fn read_atom(reader: &mut Reader, of: &str, variables: usize) -> Result<Atom, Fault> {
    let relations = "1 at most, 2 at least, 3 equal, 4 not equal";
    Ok(Atom {
        variable: reader.number(format!("the variable of {of}"), variables)?,
        relation: match reader.take(format!("the relation of {of}: {relations}"), 1, 4)? {
            1 => Relation::AtMost,
            2 => Relation::AtLeast,
            3 => Relation::Equal,
            _ => Relation::NotEqual,
        },
        value: reader.take(format!("the value of {of}"), -VALUE, VALUE)?.into(),
    })
}

fn read_hints(reader: &mut Reader, step: usize) -> Result<Vec<usize>, Fault> {
    let count = reader.take(format!("h, the number of hints of step {step}"), 0, HINTS)?;
    (0..count).map(|k| reader.number(format!("hint {k} of step {step}, the number of an earlier fact"), step)).collect()
}
