//! Counting answers, so that no kind of answer goes untested.

use std::collections::BTreeMap;
use std::fmt;
use tables::Answer;

/// How often each kind of answer came.
#[derive(Clone, Debug, Default)]
pub struct Tally {
    counts: BTreeMap<String, usize>,
}

const REFUSALS: [u32; 16] = [1, 2, 3, 4, 5, 6, 7, 10, 11, 12, 13, 20, 21, 22, 23, 24];

impl Tally {
    pub fn add(&mut self, answer: &Answer) {
        let name = match (answer.kind, answer.conclusion) {
            (0, _) => refused(answer.number),
            (1, conclusion) => concluded("accepted", conclusion),
            (_, conclusion) => concluded("carried", conclusion),
        };
        *self.counts.entry(name).or_default() += 1;
    }

    pub fn join(&mut self, other: &Tally) {
        for (name, count) in &other.counts {
            *self.counts.entry(name.clone()).or_default() += count;
        }
    }

    pub fn total(&self) -> usize {
        self.counts.values().sum()
    }

    /// The kinds of answers that came fewer times than that.
    pub fn rarer_than(&self, least: usize) -> Vec<String> {
        let conclusions = ["accepted", "carried"].iter();
        let concluded = conclusions.flat_map(|kind| [concluded(kind, 3), concluded(kind, 4)]);
        let names = REFUSALS.into_iter().map(refused).chain(concluded);
        names.filter(|name| self.count(name) < least).collect()
    }

    fn count(&self, name: &str) -> usize {
        self.counts.get(name).copied().unwrap_or(0)
    }
}

fn refused(number: u32) -> String {
    format!("refused with {number:2}")
}

fn concluded(kind: &str, conclusion: u32) -> String {
    format!("{kind} with conclusion {conclusion}")
}

impl fmt::Display for Tally {
    fn fmt(&self, f: &mut fmt::Formatter) -> fmt::Result {
        for (name, count) in &self.counts {
            writeln!(f, "{name}: {count}")?;
        }
        Ok(())
    }
}
