//! Reading a table word by word.

pub struct Cursor<'a> {
    pub table: &'a [i32],
    pub at: usize,
}

/// Why the word at the cursor could not be read.
#[derive(Clone, Copy)]
pub enum Trouble {
    Missing,
    Outside,
}

impl<'a> Cursor<'a> {
    /// The next word, which must lie in low..=high; the cursor stays at a word that does not.
    #[inline]
    pub fn next(&mut self, low: i32, high: i32) -> Result<i32, Trouble> {
        let Some(&word) = self.table.get(self.at) else {
            return Err(Trouble::Missing);
        };
        if word < low || word > high {
            return Err(Trouble::Outside);
        }
        self.at += 1;
        Ok(word)
    }

    /// The next word, which must be a number below `count`.
    #[inline]
    pub fn number(&mut self, count: usize) -> Result<usize, Trouble> {
        self.next(0, count as i32 - 1).map(|word| word as usize)
    }

    pub fn ended(&self) -> bool {
        self.at == self.table.len()
    }
}
