//! The answer of a check or a recheck, field by field as the C interface gives it.

/// What kind of answer it is; the numbers are those of the C interface.
#[derive(Clone, Copy, Debug, PartialEq, Eq, PartialOrd, Ord)]
pub enum Kind {
    Refused = 0,
    Accepted = 1,
    Carried = 2,
}

/// What an accepted or carried log has shown.
#[derive(Clone, Copy, Debug, PartialEq, Eq)]
pub enum Conclusion {
    NoAssignment,
    NeverBelow { variable: u32, value: i32 },
}

/// The C struct `dimpsyholt_answer`. Fields that do not apply are 0.
#[repr(C)]
#[derive(Clone, Copy, Debug, Default, PartialEq, Eq)]
pub struct Answer {
    pub kind: u32,
    pub number: u32,
    pub step: u32,
    pub position: u32,
    pub conclusion: u32,
    pub variable: u32,
    pub value: i32,
    pub changed: u32,
    pub judged: u32,
}

impl Answer {
    pub fn refused(number: u32, step: usize, position: usize) -> Answer {
        Answer {
            kind: Kind::Refused as u32,
            number,
            step: step as u32,
            position: position as u32,
            ..Answer::default()
        }
    }

    pub fn accepted(conclusion: Conclusion) -> Answer {
        Answer::concluded(Kind::Accepted, conclusion)
    }

    pub fn carried(conclusion: Conclusion) -> Answer {
        Answer::concluded(Kind::Carried, conclusion)
    }

    fn concluded(kind: Kind, conclusion: Conclusion) -> Answer {
        let (number, variable, value) = match conclusion {
            Conclusion::NoAssignment => (3, 0, 0),
            Conclusion::NeverBelow { variable, value } => (4, variable, value),
        };
        Answer {
            kind: kind as u32,
            conclusion: number,
            variable,
            value,
            ..Answer::default()
        }
    }

    /// The same answer with the two counts that only a recheck reports.
    pub fn with_counts(self, changed: u32, judged: u32) -> Answer {
        Answer {
            changed,
            judged,
            ..self
        }
    }

    pub fn is_refused(&self) -> bool {
        self.kind == Kind::Refused as u32
    }

    pub fn is_accepted(&self) -> bool {
        self.kind == Kind::Accepted as u32
    }

    pub fn is_carried(&self) -> bool {
        self.kind == Kind::Carried as u32
    }
}
