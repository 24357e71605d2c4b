//! Logs against the arithmetic of sets: deductions whose hints take one value after the other.

use crate::family::Family;
use crate::scenario::{filled, many, Scenario, FALSEHOOD};
use generator::Random;
use tables::{at_least, not_equal, Atom, Fact, Model, Row, Step};

/// In which order the hints take values from a variable.
#[derive(Clone, Copy)]
enum Order {
    /// Each takes the low end, and the first finds the deduction's own holes behind it.
    Ascending,
    /// The same values in any order.
    Permuted,
    /// Each makes a hole far from the ends.
    Inside,
}

/// What the premises of the cited facts say of the variable that the hint is about.
#[derive(Clone, Copy)]
enum Premise {
    AtLeastTheLeast,
    NotTheFirstHole,
    NotTheLatestHole,
}

struct Shape {
    variables: usize,
    /// So many holes are in the deduction's own premises.
    holes: usize,
    hints: usize,
    order: Order,
    premises: usize,
    premise: Premise,
}

const MOST: i32 = 199;

pub fn families() -> Vec<Family> {
    use Order::*;
    use Premise::*;
    vec![
        family("ascending, no premises", Ascending, 0, AtLeastTheLeast),
        family("ascending, 1 premise", Ascending, 1, AtLeastTheLeast),
        family("ascending, 16 premises", Ascending, 16, AtLeastTheLeast),
        family("permuted, no premises", Permuted, 0, AtLeastTheLeast),
        family("permuted, 1 premise", Permuted, 1, AtLeastTheLeast),
        family("permuted, 16 premises", Permuted, 16, AtLeastTheLeast),
        family("1 premise, not the first hole", Inside, 1, NotTheFirstHole),
        family(
            "16 premises, not the first hole",
            Inside,
            16,
            NotTheFirstHole,
        ),
        family(
            "1 premise, not the latest hole",
            Inside,
            1,
            NotTheLatestHole,
        ),
        family(
            "16 premises, not the latest hole",
            Inside,
            16,
            NotTheLatestHole,
        ),
    ]
}

fn family(name: &str, order: Order, premises: usize, premise: Premise) -> Family {
    let mut logs = Vec::new();
    for variables in [1, 8, 64] {
        for holes in [0, 4, 16] {
            for hints in [4, 16, 64] {
                logs.push(
                    Shape {
                        variables,
                        holes,
                        hints,
                        order,
                        premises,
                        premise,
                    }
                    .scenario(),
                );
            }
        }
    }
    Family {
        name: name.to_string(),
        logs,
    }
}

impl Shape {
    /// The last hint of each deduction cites "false", the others take values.
    fn scenario(&self) -> Scenario {
        let own = self.own_holes();
        let taken = self.taken(&own);
        let facts: Vec<Step> = (0..taken.len())
            .map(|hint| self.cited(hint, &own, &taken))
            .collect();
        let mut hints: Vec<usize> = (1..=taken.len()).collect();
        hints.push(FALSEHOOD);
        let deduction = Step::Deduction {
            fact: Fact::new(&own, None),
            hints,
        };
        let model = Model {
            bounds: vec![(0, MOST); self.variables],
            rows: vec![Row::linear(-1, &[(1, 0)])],
        };
        let name = format!(
            "{}, {}, {}",
            many(self.variables, "variable"),
            many(self.holes, "hole"),
            many(self.hints, "hint")
        );
        filled(&name, model, &facts, deduction, usize::MAX)
    }

    /// The holes next to the low ends, or in the middle, one variable after the other.
    fn own_holes(&self) -> Vec<Atom> {
        let first = match self.order {
            Order::Inside => MOST / 2,
            _ => 1,
        };
        (0..self.holes)
            .map(|hole| {
                not_equal(
                    hole % self.variables,
                    first + (hole / self.variables) as i32,
                )
            })
            .collect()
    }

    /// What the hints take, one variable after the other.
    fn taken(&self, own: &[Atom]) -> Vec<Atom> {
        let mut taken: Vec<Atom> = (0..self.hints - 1)
            .map(|hint| {
                let (variable, nth) = (hint % self.variables, hint / self.variables);
                let value = match self.order {
                    Order::Inside => 10 + nth as i32,
                    _ if nth == 0 => 0,
                    _ => (about(own, variable).count() + nth) as i32,
                };
                not_equal(variable, value)
            })
            .collect();
        if let Order::Permuted = self.order {
            Random::new(1).shuffle(&mut taken);
        }
        taken
    }

    fn cited(&self, hint: usize, own: &[Atom], taken: &[Atom]) -> Step {
        let consequent = taken[hint];
        let variable = consequent.variable;
        let mut holes = about(own, variable).chain(about(&taken[..hint], variable));
        let premise = match self.premise {
            Premise::AtLeastTheLeast => None,
            Premise::NotTheFirstHole => holes.next(),
            Premise::NotTheLatestHole => holes.last(),
        };
        let premise = premise.unwrap_or(at_least(variable, 0));
        Step::Inference {
            row: 0,
            fact: Fact::new(&vec![premise; self.premises], Some(consequent)),
        }
    }
}

fn about(atoms: &[Atom], variable: usize) -> impl Iterator<Item = Atom> + '_ {
    atoms
        .iter()
        .copied()
        .filter(move |a| a.variable == variable)
}
