//! A log as data.

#[derive(Clone, Copy, Debug, PartialEq, Eq)]
pub enum Relation {
    AtMost = 1,
    AtLeast = 2,
    Equal = 3,
    NotEqual = 4,
}

#[derive(Clone, Copy, Debug, PartialEq, Eq)]
pub struct Atom {
    pub variable: usize,
    pub relation: Relation,
    pub value: i32,
}

/// The premises give the consequent; no consequent means "false".
#[derive(Clone, Debug, Default, PartialEq, Eq)]
pub struct Fact {
    pub premises: Vec<Atom>,
    pub consequent: Option<Atom>,
}

#[derive(Clone, Debug, PartialEq, Eq)]
pub enum Step {
    Inference {
        row: usize,
        fact: Fact,
    },
    Deduction {
        fact: Fact,
        hints: Vec<usize>,
    },
    NoAssignment {
        cited: usize,
    },
    NeverBelow {
        variable: usize,
        value: i32,
        cited: usize,
    },
}

impl Atom {
    pub fn holds(&self, value: i32) -> bool {
        match self.relation {
            Relation::AtMost => value <= self.value,
            Relation::AtLeast => value >= self.value,
            Relation::Equal => value == self.value,
            Relation::NotEqual => value != self.value,
        }
    }

    pub fn negated(&self) -> Atom {
        let (relation, value) = match self.relation {
            Relation::AtMost => (Relation::AtLeast, self.value + 1),
            Relation::AtLeast => (Relation::AtMost, self.value - 1),
            Relation::Equal => (Relation::NotEqual, self.value),
            Relation::NotEqual => (Relation::Equal, self.value),
        };
        Atom {
            variable: self.variable,
            relation,
            value,
        }
    }
}

impl Fact {
    pub fn new(premises: &[Atom], consequent: Option<Atom>) -> Fact {
        Fact {
            premises: premises.to_vec(),
            consequent,
        }
    }
}

pub fn at_most(variable: usize, value: i32) -> Atom {
    atom(variable, Relation::AtMost, value)
}

pub fn at_least(variable: usize, value: i32) -> Atom {
    atom(variable, Relation::AtLeast, value)
}

pub fn equal(variable: usize, value: i32) -> Atom {
    atom(variable, Relation::Equal, value)
}

pub fn not_equal(variable: usize, value: i32) -> Atom {
    atom(variable, Relation::NotEqual, value)
}

fn atom(variable: usize, relation: Relation, value: i32) -> Atom {
    Atom {
        variable,
        relation,
        value,
    }
}
