//! Reading a step, and finding the fact of a step that has been read before.

use crate::cursor::{Cursor, Trouble};
use crate::model::Shape;
use tables::limits::{HINTS, PREMISES, VALUE};

/// A fact as words of the log: three for each premise, three or none for the consequent.
#[derive(Clone, Copy)]
pub struct Fact<'a> {
    pub premises: &'a [i32],
    pub consequent: &'a [i32],
}

pub enum Step<'a> {
    Inference {
        row: usize,
        fact: Fact<'a>,
    },
    Deduction {
        fact: Fact<'a>,
        hints: &'a [i32],
    },
    NoAssignment {
        cited: usize,
    },
    NeverBelow {
        variable: usize,
        value: i32,
        cited: usize,
    },
}

/// Reads step `number`, which may cite only numbers below its own.
pub fn read<'a>(
    cursor: &mut Cursor<'a>,
    shape: &Shape,
    number: usize,
) -> Result<Step<'a>, Trouble> {
    match cursor.next(1, 4)? {
        1 => Ok(Step::Inference {
            row: cursor.number(shape.rows)?,
            fact: read_fact(cursor, shape.variables)?,
        }),
        2 => Ok(Step::Deduction {
            fact: read_fact(cursor, shape.variables)?,
            hints: read_hints(cursor, number)?,
        }),
        3 => Ok(Step::NoAssignment {
            cited: cursor.number(number)?,
        }),
        _ => Ok(Step::NeverBelow {
            variable: cursor.number(shape.variables)?,
            value: cursor.next(-VALUE, VALUE)?,
            cited: cursor.number(number)?,
        }),
    }
}

fn read_fact<'a>(cursor: &mut Cursor<'a>, variables: usize) -> Result<Fact<'a>, Trouble> {
    let count = cursor.next(0, PREMISES)?;
    let premises = read_atoms(cursor, count, variables)?;
    let count = cursor.next(0, 1)?;
    let consequent = read_atoms(cursor, count, variables)?;
    Ok(Fact {
        premises,
        consequent,
    })
}

fn read_atoms<'a>(
    cursor: &mut Cursor<'a>,
    count: i32,
    variables: usize,
) -> Result<&'a [i32], Trouble> {
    let start = cursor.at;
    for _ in 0..count {
        cursor.number(variables)?;
        cursor.next(1, 4)?;
        cursor.next(-VALUE, VALUE)?;
    }
    Ok(&cursor.table[start..cursor.at])
}

fn read_hints<'a>(cursor: &mut Cursor<'a>, number: usize) -> Result<&'a [i32], Trouble> {
    let count = cursor.next(0, HINTS)?;
    let start = cursor.at;
    for _ in 0..count {
        cursor.number(number)?;
    }
    Ok(&cursor.table[start..cursor.at])
}

/// The fact of the inference or deduction that begins at `place` and was read well.
pub fn cited_fact(log: &[i32], place: u32) -> Fact<'_> {
    let step = &log[place as usize..];
    let fact = if step[0] == 1 { &step[2..] } else { &step[1..] };
    let (premises, rest) = fact[1..].split_at(3 * fact[0] as usize);
    let consequent = &rest[1..1 + 3 * rest[0] as usize];
    Fact {
        premises,
        consequent,
    }
}
