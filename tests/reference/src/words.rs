//! Reading a table word by word.

/// Why a word could not be read.
#[derive(Clone, Copy, Debug, PartialEq, Eq)]
pub enum Trouble {
    /// The table has ended.
    Missing,
    /// The word at this position is outside its range.
    Outside(usize),
}

pub struct Words<'a> {
    table: &'a [i32],
    at: usize,
}

impl<'a> Words<'a> {
    pub fn new(table: &'a [i32]) -> Words<'a> {
        Words { table, at: 0 }
    }

    /// The position of the next word.
    pub fn at(&self) -> usize {
        self.at
    }

    pub fn ended(&self) -> bool {
        self.at == self.table.len()
    }

    /// The next word, which must lie in low..=high.
    pub fn next(&mut self, low: i32, high: i32) -> Result<i32, Trouble> {
        let Some(&word) = self.table.get(self.at) else {
            return Err(Trouble::Missing);
        };
        if word < low || word > high {
            return Err(Trouble::Outside(self.at));
        }
        self.at += 1;
        Ok(word)
    }

    /// The next word, which must be a number below `count`.
    pub fn number(&mut self, count: usize) -> Result<usize, Trouble> {
        self.next(0, count as i32 - 1).map(|word| word as usize)
    }
}
