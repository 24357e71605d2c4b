//! The model table, read as far as it goes.

use super::reader::{Expected, Fault, Reader};

/// The limits of the words.
pub const VALUE: i64 = 100_000;
const VARIABLES: i64 = 64;
const ROWS: i64 = 64;
const PARTS: i64 = 16;
const COEFFICIENT: i64 = 1_000_000;
const CAPACITY: i64 = 1_000_000;
const USAGE: i64 = 1_000_000;
const DURATION: i64 = 10_000;

#[derive(Default)]
pub struct Model {
    /// The declared low and high of each variable.
    pub bounds: Vec<(i32, i32)>,
    pub rows: Vec<Row>,
}

pub enum Row {
    /// Pairs of coefficient and variable.
    Linear {
        bound: i32,
        terms: Vec<(i32, usize)>,
    },
    AllDifferent {
        variables: Vec<usize>,
    },
    Cumulative {
        capacity: i32,
        activities: Vec<Activity>,
    },
    Circuit {
        variables: Vec<usize>,
    },
}

#[derive(Clone, Copy)]
pub struct Activity {
    pub start: usize,
    pub duration: i32,
    pub usage: i32,
}

impl Row {
    /// The variables by position; one may come more than once.
    pub fn variables(&self) -> Vec<usize> {
        match self {
            Row::Linear { terms, .. } => terms.iter().map(|&(_, variable)| variable).collect(),
            Row::Cumulative { activities, .. } => activities.iter().map(|activity| activity.start).collect(),
            Row::AllDifferent { variables } | Row::Circuit { variables } => variables.clone(),
        }
    }
}

/// The model as far as it could be read, what each word is, and what is wrong at the end.
pub struct ModelTable {
    pub model: Model,
    pub trail: Vec<Expected>,
    pub fault: Option<Fault>,
}

pub fn read_model(words: &[i32]) -> ModelTable {
    let mut reader = Reader::new(words);
    let mut model = Model::default();
    let read = into(&mut model, &mut reader);
    let surplus = (!reader.at_end()).then_some(Fault::Surplus);
    ModelTable { model, trail: reader.trail, fault: read.err().or(surplus) }
}

fn into(model: &mut Model, reader: &mut Reader) -> Result<(), Fault> {
    let variables = reader.take("V, the number of variables", 1, VARIABLES)?;
    for variable in 0..variables {
        let low = reader.take(format!("the low of x{variable}"), -VALUE, VALUE)?;
        let high = reader.take(format!("the high of x{variable}"), low.into(), VALUE)?;
        model.bounds.push((low, high));
    }
    let rows = reader.take("C, the number of rows", 0, ROWS)?;
    for row in 0..rows {
        let row = read_row(reader, row, model.bounds.len())?;
        model.rows.push(row);
    }
    Ok(())
}

fn read_row(reader: &mut Reader, row: i32, variables: usize) -> Result<Row, Fault> {
    let kinds = "1 linear, 2 all-different, 3 cumulative, 4 circuit";
    match reader.take(format!("the kind of row {row}: {kinds}"), 1, 4)? {
        1 => read_linear(reader, row, variables),
        2 => read_list(reader, row, "variable", variables).map(|variables| Row::AllDifferent { variables }),
        3 => read_cumulative(reader, row, variables),
        _ => read_list(reader, row, "position", variables).map(|variables| Row::Circuit { variables }),
    }
}

fn read_linear(reader: &mut Reader, row: i32, variables: usize) -> Result<Row, Fault> {
    let count = reader.take(format!("n of row {row}, its number of terms"), 1, PARTS)?;
    let bound = reader.take(format!("the bound of row {row}"), i32::MIN.into(), i32::MAX.into())?;
    let mut terms = Vec::new();
    for k in 0..count {
        let coefficient =
            reader.take(format!("the coefficient of term {k} of row {row}"), -COEFFICIENT, COEFFICIENT)?;
        let variable = reader.number(format!("the variable of term {k} of row {row}"), variables)?;
        terms.push((coefficient, variable));
    }
    Ok(Row::Linear { bound, terms })
}

fn read_cumulative(reader: &mut Reader, row: i32, variables: usize) -> Result<Row, Fault> {
    let count = reader.take(format!("n of row {row}, its number of activities"), 1, PARTS)?;
    let capacity = reader.take(format!("the capacity of row {row}"), 0, CAPACITY)?;
    let mut activities = Vec::new();
    for k in 0..count {
        let of = format!("of activity {k} of row {row}");
        activities.push(Activity {
            start: reader.number(format!("the start variable {of}"), variables)?,
            duration: reader.take(format!("the duration {of}"), 1, DURATION)?,
            usage: reader.take(format!("the usage {of}"), 0, USAGE)?,
        });
    }
    Ok(Row::Cumulative { capacity, activities })
}

/// Variables of which none comes twice.
fn read_list(reader: &mut Reader, row: i32, part: &str, variables: usize) -> Result<Vec<usize>, Fault> {
    let count = reader.take(format!("n of row {row}, its number of {part}s"), 2, PARTS)?;
    let first = reader.at();
    let mut list: Vec<usize> = Vec::new();
    for k in 0..count {
        let what = match part {
            "position" => format!("the variable at position {k} of row {row}"),
            _ => format!("variable {k} of row {row}"),
        };
        let variable = reader.number(what, variables)?;
        if let Some(earlier) = list.iter().position(|&other| other == variable) {
            return Err(Fault::Twice(first + earlier));
        }
        list.push(variable);
    }
    Ok(list)
}
