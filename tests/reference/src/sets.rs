//! The box of a fact: for each variable the list of all values that are left.

use crate::fault::{Fault, Slip};
use std::rc::Rc;
use tables::{Atom, Fact, Relation};

/// One list per variable, in rising order. Lists that nothing has narrowed are shared.
#[derive(Clone)]
pub struct Sets {
    sets: Vec<Rc<Vec<i32>>>,
    slip: Slip,
}

impl Sets {
    /// All values within the declared bounds.
    pub fn declared(bounds: &[(i32, i32)], slip: Slip) -> Sets {
        let mut sets: Vec<Rc<Vec<i32>>> = Vec::new();
        for (variable, &(low, high)) in bounds.iter().enumerate() {
            let same = bounds[..variable].iter().position(|&b| b == (low, high));
            sets.push(match same {
                Some(earlier) => Rc::clone(&sets[earlier]),
                None => Rc::new((low..=high).collect()),
            });
        }
        Sets { sets, slip }
    }

    /// The values that satisfy all premises and the negated consequent.
    pub fn of_fact(declared: &Sets, fact: &Fact) -> Sets {
        let mut sets = declared.clone();
        for premise in &fact.premises {
            sets.narrow(premise);
        }
        if let Some(consequent) = &fact.consequent {
            sets.narrow(&negated(consequent, declared.slip));
        }
        sets
    }

    /// Leaves the values for which the atom holds.
    pub fn narrow(&mut self, atom: &Atom) {
        if self.overlooked(atom) {
            return;
        }
        let set = &mut self.sets[atom.variable];
        if !set.iter().all(|&value| atom.holds(value)) {
            let mut left = Vec::from_iter(set.iter().copied().filter(|&value| atom.holds(value)));
            fall_short(&mut left, set, atom, self.slip);
            *set = Rc::new(left);
        }
    }

    /// Two of the faults overlook some holes.
    fn overlooked(&self, atom: &Atom) -> bool {
        let set = self.of(atom.variable);
        let at_end = [set.first(), set.last()].contains(&Some(&atom.value));
        atom.relation == Relation::NotEqual
            && match self.slip {
                Some(Fault::HolesDropped) => !at_end,
                Some(Fault::EndHoleIgnored) => at_end,
                _ => false,
            }
    }

    /// The values left to a variable.
    pub fn of(&self, variable: usize) -> &[i32] {
        &self.sets[variable]
    }

    pub fn any_empty(&self) -> bool {
        self.sets.iter().any(|set| set.is_empty())
    }

    /// Whether the atom holds for every value left.
    pub fn satisfy(&self, atom: &Atom) -> bool {
        let mut values = self.of(atom.variable).iter();
        if self.slip == Some(Fault::HintPremisesMayHold) {
            return values.any(|&value| atom.holds(value));
        }
        values.all(|&value| atom.holds(value))
    }
}

/// Two of the faults move an end too little: values come back that holes had taken away.
fn fall_short(left: &mut Vec<i32>, before: &[i32], atom: &Atom, slip: Slip) {
    let steps = match slip {
        Some(Fault::EndStaysOnHole) => 0,
        Some(Fault::EndPassesOneHole) => 1,
        _ => return,
    };
    let (first, last) = (before[0], before[before.len() - 1]);
    let (low, high) = match atom.relation {
        Relation::AtMost => (first, atom.value - steps),
        Relation::AtLeast => (atom.value + steps, last),
        Relation::NotEqual if atom.value == first => (first + 1 + steps, last),
        Relation::NotEqual if atom.value == last => (first, last - 1 - steps),
        _ => return,
    };
    if low > high {
        return;
    }
    if left.first().is_none_or(|&value| value > low) {
        left.insert(0, low);
    }
    if left.last().is_none_or(|&value| value < high) {
        left.push(high);
    }
}

fn negated(consequent: &Atom, slip: Slip) -> Atom {
    match slip {
        Some(Fault::ConsequentNotNegated) => *consequent,
        Some(Fault::NegationKeepsValue) => Atom {
            value: consequent.value,
            ..consequent.negated()
        },
        _ => consequent.negated(),
    }
}
