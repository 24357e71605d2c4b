//! Small random models, tight enough that there is often something to show.

use crate::random::Random;
use tables::{Activity, Model, Row, Term};

/// A model with few variables, few values and a few rows of any kind.
pub fn small_model(r: &mut Random) -> Model {
    let variables = r.between(2, 5) as usize;
    let bounds = (0..variables).map(|_| small_bounds(r)).collect();
    let mut model = Model {
        bounds,
        rows: Vec::new(),
    };
    for _ in 0..r.between(1, 4) {
        let row = match r.below(4) {
            0 => linear(r, &model),
            1 => all_different(r, variables),
            2 => cumulative(r, variables),
            _ => circuit(r, &mut model),
        };
        model.rows.push(row);
    }
    model
}

fn small_bounds(r: &mut Random) -> (i32, i32) {
    let low = if r.chance(70) {
        r.between(0, 2)
    } else {
        r.between(-6, 4)
    };
    (low, low + r.between(0, 4))
}

/// A random row over the variables of the model; its bounds are left alone.
pub fn any_row(r: &mut Random, model: &Model) -> Row {
    let variables = model.bounds.len();
    match r.below(4) {
        1 if variables >= 2 => all_different(r, variables),
        2 => cumulative(r, variables),
        3 if variables >= 2 => {
            let n = r.between(2, variables.min(5) as i32) as usize;
            Row::circuit(&r.sample(n, variables))
        }
        _ => linear(r, model),
    }
}

fn linear(r: &mut Random, model: &Model) -> Row {
    let mut terms = Vec::new();
    for _ in 0..r.between(1, 4) {
        terms.push(Term {
            coefficient: r.between(-3, 3),
            variable: r.below(model.bounds.len()),
        });
    }
    let bound = near_least_sum(r, &terms, &model.bounds);
    Row::Linear { bound, terms }
}

/// A bound that is a little above the least sum, or just below it.
fn near_least_sum(r: &mut Random, terms: &[Term], bounds: &[(i32, i32)]) -> i32 {
    let mut least = 0;
    let mut largest = 0;
    for term in terms {
        let (low, high) = bounds[term.variable];
        let ends = [term.coefficient * low, term.coefficient * high];
        least += ends[0].min(ends[1]);
        largest += ends[0].max(ends[1]);
    }
    let slack = (largest - least) / 2;
    least + r.between(-1, slack.max(0))
}

fn all_different(r: &mut Random, variables: usize) -> Row {
    let n = r.between(2, variables.min(5) as i32) as usize;
    Row::all_different(&r.sample(n, variables))
}

fn cumulative(r: &mut Random, variables: usize) -> Row {
    let capacity = r.between(0, 4);
    let mut activities = Vec::new();
    for _ in 0..r.between(1, 5) {
        let most = capacity.max(1) + r.chance(5) as i32;
        activities.push(Activity {
            start: r.below(variables),
            duration: r.between(1, 5),
            usage: r.between(0, most),
        });
    }
    Row::Cumulative {
        capacity,
        activities,
    }
}

/// A circuit; most of its variables get bounds that name its positions.
fn circuit(r: &mut Random, model: &mut Model) -> Row {
    let variables = model.bounds.len();
    let n = r.between(2, variables.min(5) as i32) as usize;
    let list = r.sample(n, variables);
    for &variable in &list {
        if r.chance(70) {
            let low = r.between(-1, 1);
            model.bounds[variable] = (low, low.max(n as i32 - r.between(0, 2)));
        }
    }
    Row::circuit(&list)
}
