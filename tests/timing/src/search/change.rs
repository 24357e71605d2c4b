//! A shape changed in a few places.

use super::draw::atom;
use super::shape::Shape;
use generator::Random;
use tables::limits::{HINTS, PREMISES, VALUE, VARIABLES};
use tables::{Atom, Fact, Row};

const MOST_CITED: usize = 64;

impl Shape {
    pub fn changed(&self, r: &mut Random) -> Shape {
        let mut shape = self.clone();
        for _ in 0..r.between(1, 4) {
            shape.change(r);
        }
        shape
    }

    fn change(&mut self, r: &mut Random) {
        let is_deduction = self.row.is_none();
        match r.below(10) {
            0 => self.change_bounds(r),
            1 if r.chance(20) => self.change_variables(r),
            2..=4 if is_deduction => self.change_hints(r),
            5..=7 if is_deduction => self.change_cited(r),
            2..=4 => self.change_row(r),
            _ => change_premises(&mut self.fact.premises, &self.bounds, r),
        }
    }

    fn change_bounds(&mut self, r: &mut Random) {
        let at = r.below(self.bounds.len());
        let (low, high) = self.bounds[at];
        let by = *r.pick(&[1, -1, 8, -8, 64, -64]);
        let low = if r.chance(50) { low } else { low + by };
        let high = if r.chance(50) { high } else { high + by };
        if -VALUE <= low && low <= high && high <= VALUE {
            self.bounds[at] = (low, high);
        }
        if r.chance(10) {
            let pair = self.bounds[at];
            self.bounds.fill(pair);
        }
    }

    /// More variables; fewer could be named no longer.
    fn change_variables(&mut self, r: &mut Random) {
        let count = r.between(self.bounds.len() as i32, VARIABLES) as usize;
        let pair = *r.pick(&self.bounds);
        self.bounds.resize(count, pair);
    }

    fn change_hints(&mut self, r: &mut Random) {
        let (hints, count) = (&mut self.hints, self.cited.len());
        match r.below(7) {
            0 | 1 if hints.len() < HINTS as usize - 1 => {
                hints.insert(r.below(hints.len() + 1), r.below(count));
            }
            2 if hints.len() > 1 => {
                hints.remove(r.below(hints.len()));
            }
            3 => hints.sort_unstable(),
            4 => r.shuffle(hints),
            5 => *hints = (0..count.min(HINTS as usize - 1)).collect(),
            _ => {
                let at = r.below(hints.len());
                hints[at] = r.below(count);
            }
        }
    }

    fn change_cited(&mut self, r: &mut Random) {
        let at = r.below(self.cited.len());
        match r.below(6) {
            0 if self.cited.len() < MOST_CITED => self.cited.push(next_to(&self.cited[at])),
            1 => {
                let consequent = self.cited[at].consequent.as_mut();
                consequent.into_iter().for_each(|a| shift(a, r));
            }
            2 => self.cited[at].consequent = Some(atom(r, &self.bounds)),
            3 => {
                let premises = self.cited[at].premises.clone();
                self.cited
                    .iter_mut()
                    .for_each(|f| f.premises = premises.clone());
            }
            _ => change_premises(&mut self.cited[at].premises, &self.bounds, r),
        }
    }

    fn change_row(&mut self, r: &mut Random) {
        match &mut self.row {
            Some(Row::Linear { terms, .. }) => {
                let at = r.below(terms.len());
                terms[at].coefficient = -terms[at].coefficient;
                terms[at].variable = r.below(self.bounds.len());
            }
            Some(Row::Cumulative {
                capacity,
                activities,
            }) => {
                let at = r.below(activities.len());
                let by = *r.pick(&[1, -1, 10, -10, 1_000, -1_000]);
                match r.below(4) {
                    0 => *capacity = r.between(0, 4),
                    1 => activities[at].usage = r.between(0, 4),
                    2 => activities[at].start = r.below(self.bounds.len()),
                    _ => {
                        let duration = activities[at].duration + by;
                        activities[at].duration = duration.clamp(1, 10_000);
                    }
                }
            }
            Some(Row::AllDifferent { variables } | Row::Circuit { variables }) => {
                r.shuffle(variables);
            }
            None => {}
        }
    }
}

fn change_premises(premises: &mut Vec<Atom>, bounds: &[(i32, i32)], r: &mut Random) {
    if premises.is_empty() {
        premises.push(atom(r, bounds));
        return;
    }
    let at = r.below(premises.len());
    match r.below(6) {
        0 | 1 if premises.len() < PREMISES as usize => premises.push(atom(r, bounds)),
        2 => premises.push(premises[at]),
        3 => {
            premises.remove(at);
        }
        4 => premises[at] = atom(r, bounds),
        _ => shift(&mut premises[at], r),
    }
    premises.truncate(PREMISES as usize);
}

fn shift(atom: &mut Atom, r: &mut Random) {
    let by = *r.pick(&[1, -1, 2, 64, -64]);
    atom.value = (atom.value + by).clamp(-VALUE, VALUE);
}

/// The same fact about the value after.
fn next_to(fact: &Fact) -> Fact {
    let mut next = fact.clone();
    if let Some(consequent) = &mut next.consequent {
        consequent.value = (consequent.value + 1).min(VALUE);
    }
    next
}
