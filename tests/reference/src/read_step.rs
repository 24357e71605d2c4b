//! Reading one step of the log, every word of it, before its meaning is looked at.

use crate::fault::{Fault, Slip};
use crate::words::{Trouble, Words};
use tables::limits::{HINTS, PREMISES, VALUE};
use tables::{Atom, Fact, Model, Relation, Step};

/// Reads step `number`, which may cite only numbers below its own.
pub fn read_step(
    words: &mut Words,
    model: &Model,
    number: usize,
    slip: Slip,
) -> Result<Step, Trouble> {
    Reader {
        words,
        model,
        number,
        slip,
    }
    .step()
}

struct Reader<'a, 'b> {
    words: &'a mut Words<'b>,
    model: &'a Model,
    number: usize,
    slip: Slip,
}

impl Reader<'_, '_> {
    fn step(&mut self) -> Result<Step, Trouble> {
        match self.words.next(1, 4)? {
            1 => Ok(Step::Inference {
                row: self.row()?,
                fact: self.fact()?,
            }),
            2 => Ok(Step::Deduction {
                fact: self.fact()?,
                hints: self.hints()?,
            }),
            3 => Ok(Step::NoAssignment {
                cited: self.cited()?,
            }),
            _ => Ok(Step::NeverBelow {
                variable: self.words.number(self.model.bounds.len())?,
                value: self.value()?,
                cited: self.cited()?,
            }),
        }
    }

    fn row(&mut self) -> Result<usize, Trouble> {
        let rows = self.model.rows.len();
        if self.slip == Some(Fault::RowNumberLoose) && rows > 0 {
            return Ok(self.words.number(rows + 1)?.min(rows - 1));
        }
        self.words.number(rows)
    }

    fn fact(&mut self) -> Result<Fact, Trouble> {
        let loose = (self.slip == Some(Fault::PremisesLimitLoose)) as i32;
        let count = self.words.next(0, PREMISES + loose)?;
        let premises = self.atoms(count)?;
        let count = self.words.next(0, 1)?;
        let consequent = self.atoms(count)?.pop();
        Ok(Fact {
            premises,
            consequent,
        })
    }

    fn atoms(&mut self, count: i32) -> Result<Vec<Atom>, Trouble> {
        (0..count).map(|_| self.atom()).collect()
    }

    fn atom(&mut self) -> Result<Atom, Trouble> {
        Ok(Atom {
            variable: self.words.number(self.model.bounds.len())?,
            relation: self.relation()?,
            value: self.value()?,
        })
    }

    fn relation(&mut self) -> Result<Relation, Trouble> {
        Ok(match self.words.next(1, 4)? {
            1 => Relation::AtMost,
            2 => Relation::AtLeast,
            3 => Relation::Equal,
            _ => Relation::NotEqual,
        })
    }

    fn value(&mut self) -> Result<i32, Trouble> {
        let loose = (self.slip == Some(Fault::ValueLimitLoose)) as i32;
        self.words.next(-VALUE - loose, VALUE + loose)
    }

    fn hints(&mut self) -> Result<Vec<usize>, Trouble> {
        let tight = (self.slip == Some(Fault::HintsLimitTight)) as i32;
        let count = self.words.next(0, HINTS - tight)?;
        (0..count).map(|_| self.hint()).collect()
    }

    fn hint(&mut self) -> Result<usize, Trouble> {
        if self.slip == Some(Fault::UnusedHintsUnread) {
            return Ok(self.words.next(i32::MIN, i32::MAX)? as usize);
        }
        self.cited()
    }

    fn cited(&mut self) -> Result<usize, Trouble> {
        let itself = (self.slip == Some(Fault::SelfCitation)) as usize;
        self.words.number(self.number + itself)
    }
}
