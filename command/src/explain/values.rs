//! The values that are left to a variable, exactly.

use super::log::{Atom, Fact, Relation};
use super::model::Model;
use std::fmt;

/// Rising stretches (first, last) with a gap between any two.
#[derive(Clone, Debug, PartialEq, Eq)]
pub struct Values(Vec<(i64, i64)>);

impl Values {
    pub fn between(low: i64, high: i64) -> Values {
        Values(vec![(low, high)]).kept(i64::MIN, i64::MAX)
    }

    /// Those from `low` to `high`.
    fn kept(&self, low: i64, high: i64) -> Values {
        let cut = self.0.iter().map(|&(first, last)| (first.max(low), last.min(high)));
        Values(cut.filter(|(first, last)| first <= last).collect())
    }

    /// Those that satisfy the atom.
    pub fn narrowed(&self, atom: &Atom) -> Values {
        let value = atom.value;
        match atom.relation {
            Relation::AtMost => self.kept(i64::MIN, value),
            Relation::AtLeast => self.kept(value, i64::MAX),
            Relation::Equal => self.kept(value, value),
            Relation::NotEqual => {
                let (below, above) = (self.kept(i64::MIN, value - 1), self.kept(value + 1, i64::MAX));
                Values([below.0, above.0].concat())
            }
        }
    }

    /// Whether every value satisfies the atom.
    pub fn all(&self, atom: &Atom) -> bool {
        self.narrowed(atom) == *self
    }

    pub fn is_empty(&self) -> bool {
        self.0.is_empty()
    }

    pub fn contains(&self, value: i64) -> bool {
        self.0.iter().any(|&(first, last)| (first..=last).contains(&value))
    }

    /// The least value; 0 where there is none.
    pub fn least(&self) -> i64 {
        self.0.first().map_or(0, |&(first, _)| first)
    }

    /// The largest value; 0 where there is none.
    pub fn largest(&self) -> i64 {
        self.0.last().map_or(0, |&(_, last)| last)
    }

    pub fn count(&self) -> i64 {
        self.0.iter().map(|(first, last)| last - first + 1).sum()
    }

    /// The least value that is not below `from`.
    pub fn next_from(&self, from: i64) -> Option<i64> {
        self.0.iter().find(|&&(_, last)| last >= from).map(|&(first, _)| first.max(from))
    }

    pub fn union(sets: &[&Values]) -> Values {
        let mut stretches: Vec<(i64, i64)> = sets.iter().flat_map(|set| set.0.iter().copied()).collect();
        stretches.sort_unstable();
        let mut joined: Vec<(i64, i64)> = Vec::new();
        for (first, last) in stretches {
            match joined.last_mut() {
                Some(before) if first <= before.1 + 1 => before.1 = before.1.max(last),
                _ => joined.push((first, last)),
            }
        }
        Values(joined)
    }
}

/// The values left to each variable.
pub type Left = Vec<Values>;

pub fn declared(model: &Model) -> Left {
    let sets = model.bounds.iter().map(|&(low, high)| Values::between(low.into(), high.into()));
    sets.collect()
}

/// What the fact's premises and its negated consequent leave.
pub fn box_of(model: &Model, fact: &Fact) -> Left {
    let mut left = declared(model);
    for atom in assumed(fact) {
        narrow(&mut left, &atom);
    }
    left
}

/// What is supposed when a fact is judged: its premises, and the opposite of its consequent.
pub fn assumed(fact: &Fact) -> Vec<Atom> {
    let negated = fact.consequent.map(Atom::negated);
    fact.premises.iter().copied().chain(negated).collect()
}

pub fn narrow(left: &mut Left, atom: &Atom) {
    left[atom.variable] = left[atom.variable].narrowed(atom);
}

/// How many gaps are named before the rest is only counted.
const GAPS: usize = 12;

impl fmt::Display for Values {
    fn fmt(&self, f: &mut fmt::Formatter) -> fmt::Result {
        if self.is_empty() {
            return f.write_str("no value");
        }
        write!(f, "{}", Stretch(self.least(), self.largest()))?;
        let gaps: Vec<String> =
            self.0.windows(2).map(|pair| Stretch(pair[0].1 + 1, pair[1].0 - 1).to_string()).collect();
        if gaps.is_empty() {
            return Ok(());
        }
        write!(f, " but not {}", gaps[..gaps.len().min(GAPS)].join(", "))?;
        match gaps.len().saturating_sub(GAPS) {
            0 => Ok(()),
            more => write!(f, " and {more} gaps more"),
        }
    }
}

/// From the first to the last.
pub struct Stretch(pub i64, pub i64);

impl fmt::Display for Stretch {
    fn fmt(&self, f: &mut fmt::Formatter) -> fmt::Result {
        match self {
            Stretch(first, last) if first == last => write!(f, "{first}"),
            Stretch(first, last) => write!(f, "{first}..{last}"),
        }
    }
}

#[cfg(test)]
mod tests {
    use super::*;

    fn atom(relation: Relation, value: i64) -> Atom {
        Atom { variable: 0, relation, value }
    }

    #[test]
    fn values_are_exact() {
        let all = Values::between(0, 9);
        let holes = all.narrowed(&atom(Relation::NotEqual, 4)).narrowed(&atom(Relation::NotEqual, 5));
        assert_eq!(holes.to_string(), "0..9 but not 4..5");
        assert_eq!((holes.count(), holes.contains(4), holes.next_from(4)), (8, false, Some(6)));
        let ends = all.narrowed(&atom(Relation::NotEqual, 0)).narrowed(&atom(Relation::NotEqual, 9));
        assert_eq!(ends, Values::between(1, 8));
        assert!(holes.narrowed(&atom(Relation::Equal, 4)).is_empty());
        assert!(Values::between(3, 2).is_empty());
        assert_eq!(
            Values::union(&[&holes, &Values::between(4, 4), &Values::between(20, 21)]).to_string(),
            "0..21 but not 5, 10..19"
        );
    }
}
