//! Trying every assignment of a small model, by the meaning of its rows alone.

use tables::{Activity, Answer, Model, Row};

/// What trying every assignment found.
#[derive(Debug, PartialEq, Eq)]
pub enum Search {
    /// There are too many to try.
    TooMany,
    /// The claim holds for all of them.
    Holds { tried: u64 },
    /// This one satisfies all rows and breaks the claim.
    Broken(Vec<i32>),
}

const MOST: u64 = 20_000;

/// Looks for an assignment that breaks what an answer claims of the model.
pub fn counterexample(model: &Model, answer: &Answer) -> Search {
    let sizes = model.bounds.iter().map(|&(l, h)| (h - l + 1) as u64);
    let total = sizes.fold(1u64, |product, size| product.saturating_mul(size));
    if total > MOST {
        return Search::TooMany;
    }
    let mut values: Vec<i32> = model.bounds.iter().map(|bounds| bounds.0).collect();
    for tried in 1..=total {
        let satisfied = model.rows.iter().all(|row| satisfies(row, &values));
        if satisfied && breaks(answer, &values) {
            return Search::Broken(values);
        }
        if tried == total {
            break;
        }
        advance(&mut values, &model.bounds);
    }
    Search::Holds { tried: total }
}

/// Whether the assignment, which satisfies all rows, breaks the claim.
fn breaks(answer: &Answer, values: &[i32]) -> bool {
    answer.conclusion == 3 || values[answer.variable as usize] < answer.value
}

/// The next assignment, as a counter counts.
fn advance(values: &mut [i32], bounds: &[(i32, i32)]) {
    for (value, &(low, high)) in values.iter_mut().zip(bounds) {
        if *value < high {
            *value += 1;
            return;
        }
        *value = low;
    }
}

/// Whether the assignment meets the row, by the meaning of the row.
pub fn satisfies(row: &Row, values: &[i32]) -> bool {
    match row {
        Row::Linear { bound, terms } => {
            let products = terms
                .iter()
                .map(|term| term.coefficient as i64 * values[term.variable] as i64);
            products.sum::<i64>() <= *bound as i64
        }
        Row::AllDifferent { variables } => {
            let mut seen: Vec<i32> = variables.iter().map(|&v| values[v]).collect();
            seen.sort_unstable();
            seen.windows(2).all(|pair| pair[0] != pair[1])
        }
        Row::Cumulative {
            capacity,
            activities,
        } => never_overloaded(*capacity, activities, values),
        Row::Circuit { variables } => is_round_trip(variables, values),
    }
}

/// The load only rises where an activity starts, so these times are enough.
fn never_overloaded(capacity: i32, activities: &[Activity], values: &[i32]) -> bool {
    activities.iter().all(|at| {
        let time = values[at.start];
        let running = activities
            .iter()
            .filter(|a| values[a.start] <= time && time < values[a.start] + a.duration);
        running.map(|a| a.usage as i64).sum::<i64>() <= capacity as i64
    })
}

fn is_round_trip(variables: &[usize], values: &[i32]) -> bool {
    let n = variables.len();
    let mut visited = vec![false; n];
    let mut position = 0;
    for _ in 0..n {
        if visited[position] {
            return false;
        }
        visited[position] = true;
        match usize::try_from(values[variables[position]]) {
            Ok(next) if next < n => position = next,
            _ => return false,
        }
    }
    position == 0
}

#[cfg(test)]
mod tests {
    use super::*;
    use tables::Conclusion;

    fn model(rows: Vec<Row>) -> Model {
        Model {
            bounds: vec![(0, 2), (0, 2), (0, 2)],
            rows,
        }
    }

    #[test]
    fn a_false_claim_is_found_out() {
        let no_assignment = Answer::accepted(Conclusion::NoAssignment);
        let circuit = model(vec![Row::circuit(&[0, 1, 2])]);
        let found = counterexample(&circuit, &no_assignment);
        assert_eq!(found, Search::Broken(vec![1, 2, 0]));
        let at_least_2 = Answer::accepted(Conclusion::NeverBelow {
            variable: 1,
            value: 2,
        });
        let found = counterexample(&circuit, &at_least_2);
        assert_eq!(found, Search::Broken(vec![2, 0, 1]));
    }

    #[test]
    fn a_true_claim_holds() {
        let no_assignment = Answer::accepted(Conclusion::NoAssignment);
        let crowd = model(vec![
            Row::all_different(&[0, 1, 2]),
            Row::linear(1, &[(1, 0), (1, 1)]),
            Row::linear(1, &[(1, 1), (1, 2)]),
            Row::cumulative(1, &[(0, 2, 1), (1, 1, 1), (2, 1, 1)]),
        ]);
        let held = counterexample(&crowd, &no_assignment);
        assert_eq!(held, Search::Holds { tried: 27 });
    }
}
