//! Reading the model once and remembering where its rows begin.

use crate::cursor::{Cursor, Trouble};
use tables::limits::{CAPACITY, COEFFICIENT, DURATION, ROWS, ROW_LENGTH, USAGE, VALUE, VARIABLES};

/// The number and the position of a refusal.
pub type Refusal = (u32, usize);

pub struct Shape {
    pub variables: usize,
    pub rows: usize,
    /// Where each row begins, and where the last one ends.
    row_at: [usize; ROWS as usize + 1],
}

enum Bad {
    Word(Trouble),
    Twice,
}

impl From<Trouble> for Bad {
    fn from(trouble: Trouble) -> Bad {
        Bad::Word(trouble)
    }
}

impl Shape {
    /// Refusals 4 to 7.
    pub fn read(model: &[i32]) -> Result<Shape, Refusal> {
        let mut cursor = Cursor {
            table: model,
            at: 0,
        };
        let shape = match read(&mut cursor) {
            Ok(shape) => shape,
            Err(Bad::Word(Trouble::Missing)) => return Err((4, model.len())),
            Err(Bad::Word(Trouble::Outside)) => return Err((5, cursor.at)),
            Err(Bad::Twice) => return Err((6, cursor.at - 1)),
        };
        if !cursor.ended() {
            return Err((7, cursor.at));
        }
        Ok(shape)
    }

    /// The words of a row, its kind first.
    pub fn row<'a>(&self, model: &'a [i32], row: usize) -> &'a [i32] {
        &model[self.row_at[row]..self.row_at[row + 1]]
    }

    /// The pairs of low and high.
    pub fn bounds<'a>(&self, model: &'a [i32]) -> &'a [i32] {
        &model[1..1 + 2 * self.variables]
    }
}

fn read(cursor: &mut Cursor) -> Result<Shape, Bad> {
    let variables = cursor.next(1, VARIABLES)? as usize;
    for _ in 0..variables {
        let low = cursor.next(-VALUE, VALUE)?;
        cursor.next(low, VALUE)?;
    }
    let rows = cursor.next(0, ROWS)? as usize;
    let mut row_at = [cursor.at; ROWS as usize + 1];
    for row in 0..rows {
        read_row(cursor, variables)?;
        row_at[row + 1] = cursor.at;
    }
    Ok(Shape {
        variables,
        rows,
        row_at,
    })
}

fn read_row(cursor: &mut Cursor, variables: usize) -> Result<(), Bad> {
    match cursor.next(1, 4)? {
        1 => read_linear(cursor, variables),
        3 => read_cumulative(cursor, variables),
        _ => read_distinct(cursor, variables),
    }
}

fn read_linear(cursor: &mut Cursor, variables: usize) -> Result<(), Bad> {
    let length = cursor.next(1, ROW_LENGTH)?;
    cursor.next(i32::MIN, i32::MAX)?;
    for _ in 0..length {
        cursor.next(-COEFFICIENT, COEFFICIENT)?;
        cursor.number(variables)?;
    }
    Ok(())
}

fn read_cumulative(cursor: &mut Cursor, variables: usize) -> Result<(), Bad> {
    let length = cursor.next(1, ROW_LENGTH)?;
    cursor.next(0, CAPACITY)?;
    for _ in 0..length {
        cursor.number(variables)?;
        cursor.next(1, DURATION)?;
        cursor.next(0, USAGE)?;
    }
    Ok(())
}

fn read_distinct(cursor: &mut Cursor, variables: usize) -> Result<(), Bad> {
    let length = cursor.next(2, ROW_LENGTH)?;
    let mut seen = 0u64;
    for _ in 0..length {
        let bit = 1u64 << cursor.number(variables)?;
        if seen & bit != 0 {
            return Err(Bad::Twice);
        }
        seen |= bit;
    }
    Ok(())
}
