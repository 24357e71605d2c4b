//! Reading the model table: refusals 1 and 4 to 7.

use crate::fault::{Fault, Slip};
use crate::words::{Trouble, Words};
use tables::limits::{
    CAPACITY, COEFFICIENT, DURATION, MODEL_WORDS, ROWS, ROW_LENGTH, USAGE, VALUE, VARIABLES,
};
use tables::{Activity, Model, Row, Term};

/// The number and the position of a refusal.
pub type Refusal = (u32, usize);

enum Bad {
    Word(Trouble),
    /// The word at this position names a variable for the second time.
    Twice(usize),
}

impl From<Trouble> for Bad {
    fn from(trouble: Trouble) -> Bad {
        Bad::Word(trouble)
    }
}

/// The model, or why it is refused: 1, then 4 to 7.
pub fn read_model(table: &[i32], slip: Slip) -> Result<Model, Refusal> {
    if table.len() > MODEL_WORDS {
        return Err((1, 0));
    }
    let mut words = Words::new(table);
    let model = read(&mut words, slip).map_err(|bad| refusal(bad, table.len(), slip))?;
    if !words.ended() && slip != Some(Fault::WordsAfterModelAllowed) {
        return Err((7, words.at()));
    }
    Ok(model)
}

fn refusal(bad: Bad, length: usize, slip: Slip) -> Refusal {
    let exchanged = slip == Some(Fault::FiveSixExchanged);
    match bad {
        Bad::Word(Trouble::Missing) => (4, length),
        Bad::Word(Trouble::Outside(position)) => (if exchanged { 6 } else { 5 }, position),
        Bad::Twice(position) => (if exchanged { 5 } else { 6 }, position),
    }
}

fn read(words: &mut Words, slip: Slip) -> Result<Model, Bad> {
    let most = if slip == Some(Fault::VariablesLimitTight) {
        VARIABLES - 1
    } else {
        VARIABLES
    };
    let variables = words.next(1, most)?;
    let mut bounds = Vec::new();
    for _ in 0..variables {
        let low = words.next(-VALUE, VALUE)?;
        let least_high = if slip == Some(Fault::HighBelowLow) {
            -VALUE
        } else {
            low
        };
        let high = words.next(least_high, VALUE)?;
        bounds.push((low, high));
    }
    let count = words.next(0, ROWS)?;
    let mut rows = Vec::new();
    for _ in 0..count {
        rows.push(read_row(words, variables as usize, slip)?);
    }
    Ok(Model { bounds, rows })
}

fn read_row(words: &mut Words, variables: usize, slip: Slip) -> Result<Row, Bad> {
    match words.next(1, 4)? {
        1 => read_linear(words, variables, slip),
        2 => Ok(Row::AllDifferent {
            variables: read_distinct(words, variables, slip)?,
        }),
        3 => read_cumulative(words, variables, slip),
        _ => Ok(Row::Circuit {
            variables: read_distinct(words, variables, slip)?,
        }),
    }
}

fn read_length(words: &mut Words, least: i32, slip: Slip) -> Result<i32, Trouble> {
    let loose = (slip == Some(Fault::RowLengthLimitLoose)) as i32;
    words.next(least, ROW_LENGTH + loose)
}

fn read_linear(words: &mut Words, variables: usize, slip: Slip) -> Result<Row, Bad> {
    let length = read_length(words, 1, slip)?;
    let bound = words.next(i32::MIN, i32::MAX)?;
    let mut terms = Vec::new();
    for _ in 0..length {
        terms.push(Term {
            coefficient: words.next(-COEFFICIENT, COEFFICIENT)?,
            variable: words.number(variables)?,
        });
    }
    Ok(Row::Linear { bound, terms })
}

fn read_cumulative(words: &mut Words, variables: usize, slip: Slip) -> Result<Row, Bad> {
    let length = read_length(words, 1, slip)?;
    let capacity = words.next(0, CAPACITY)?;
    let least_usage = (slip == Some(Fault::UsageZeroRefused)) as i32;
    let mut activities = Vec::new();
    for _ in 0..length {
        activities.push(Activity {
            start: words.number(variables)?,
            duration: words.next(1, DURATION)?,
            usage: words.next(least_usage, USAGE)?,
        });
    }
    Ok(Row::Cumulative {
        capacity,
        activities,
    })
}

/// A list of variables, none of them twice.
fn read_distinct(words: &mut Words, variables: usize, slip: Slip) -> Result<Vec<usize>, Bad> {
    let length = read_length(words, 2, slip)?;
    let mut list = Vec::new();
    let mut twice = None;
    for _ in 0..length {
        let position = words.at();
        let variable = words.number(variables)?;
        if list.contains(&variable) && slip != Some(Fault::TwiceAllowed) {
            twice = twice.or(Some(position));
        }
        if slip != Some(Fault::SixAtRowEnd) {
            refuse_twice(twice)?;
        }
        list.push(variable);
    }
    refuse_twice(twice)?;
    Ok(list)
}

fn refuse_twice(twice: Option<usize>) -> Result<(), Bad> {
    twice.map_or(Ok(()), |position| Err(Bad::Twice(position)))
}
