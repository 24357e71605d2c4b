//! A model as data.

/// Variables with their declared bounds, and rows.
#[derive(Clone, Debug, PartialEq, Eq)]
pub struct Model {
    pub bounds: Vec<(i32, i32)>,
    pub rows: Vec<Row>,
}

#[derive(Clone, Debug, PartialEq, Eq)]
pub enum Row {
    /// The sum of coefficient times variable is at most the bound.
    Linear { bound: i32, terms: Vec<Term> },
    /// No two values are equal.
    AllDifferent { variables: Vec<usize> },
    /// At each time the usages of the running activities sum to at most the capacity.
    Cumulative {
        capacity: i32,
        activities: Vec<Activity>,
    },
    /// The values name the next position of a round trip over all positions.
    Circuit { variables: Vec<usize> },
}

#[derive(Clone, Copy, Debug, PartialEq, Eq)]
pub struct Term {
    pub coefficient: i32,
    pub variable: usize,
}

/// Runs from its start (a variable) for `duration` times.
#[derive(Clone, Copy, Debug, PartialEq, Eq)]
pub struct Activity {
    pub start: usize,
    pub duration: i32,
    pub usage: i32,
}

impl Row {
    /// The terms are pairs (coefficient, variable).
    pub fn linear(bound: i32, terms: &[(i32, usize)]) -> Row {
        let terms = terms
            .iter()
            .map(|&(coefficient, variable)| Term {
                coefficient,
                variable,
            })
            .collect();
        Row::Linear { bound, terms }
    }

    pub fn all_different(variables: &[usize]) -> Row {
        Row::AllDifferent {
            variables: variables.to_vec(),
        }
    }

    /// The activities are triples (start variable, duration, usage).
    pub fn cumulative(capacity: i32, activities: &[(usize, i32, i32)]) -> Row {
        let activities = activities
            .iter()
            .map(|&(start, duration, usage)| Activity {
                start,
                duration,
                usage,
            })
            .collect();
        Row::Cumulative {
            capacity,
            activities,
        }
    }

    pub fn circuit(variables: &[usize]) -> Row {
        Row::Circuit {
            variables: variables.to_vec(),
        }
    }

    /// The variables of the row by position; one may come more than once.
    pub fn variables(&self) -> Vec<usize> {
        match self {
            Row::Linear { terms, .. } => terms.iter().map(|term| term.variable).collect(),
            Row::Cumulative { activities, .. } => activities.iter().map(|a| a.start).collect(),
            Row::AllDifferent { variables } | Row::Circuit { variables } => variables.clone(),
        }
    }
}
