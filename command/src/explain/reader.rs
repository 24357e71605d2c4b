//! Words read one by one, with a note of what each of them should be.

/// What a word of a table should be.
#[derive(Clone, Debug)]
pub struct Expected {
    pub what: String,
    pub low: i64,
    pub high: i64,
}

/// What is wrong with the last word of the trail, or behind it.
#[derive(Clone, Copy, Debug, PartialEq, Eq)]
pub enum Fault {
    /// The word is not there.
    Missing,
    OutOfRange,
    /// The variable stands at this word already.
    Twice(usize),
    /// The table is complete, and words follow.
    Surplus,
}

pub struct Reader<'a> {
    pub words: &'a [i32],
    /// What each word read so far should be, the one at fault included.
    pub trail: Vec<Expected>,
}

impl<'a> Reader<'a> {
    pub fn new(words: &'a [i32]) -> Reader<'a> {
        Reader { words, trail: Vec::new() }
    }

    /// How many words were read.
    pub fn at(&self) -> usize {
        self.trail.len()
    }

    pub fn at_end(&self) -> bool {
        self.at() >= self.words.len()
    }

    pub fn take(&mut self, what: impl Into<String>, low: i64, high: i64) -> Result<i32, Fault> {
        let word = self.words.get(self.at()).copied();
        self.trail.push(Expected { what: what.into(), low, high });
        match word {
            None => Err(Fault::Missing),
            Some(word) if (low..=high).contains(&i64::from(word)) => Ok(word),
            Some(_) => Err(Fault::OutOfRange),
        }
    }

    /// A number below `count`.
    pub fn number(&mut self, what: impl Into<String>, count: usize) -> Result<usize, Fault> {
        self.take(what, 0, count as i64 - 1).map(|word| word as usize)
    }
}
