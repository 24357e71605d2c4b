//! Steps of the fewest words, so that the log holds the most of them.

use crate::family::Family;
use crate::scenario::{filled, many, Scenario, FALSEHOOD};
use tables::limits::{DURATION, VALUE};
use tables::{Fact, Model, Row, Step};

pub fn families() -> Vec<Family> {
    vec![
        Family {
            name: "four-word steps, linear".to_string(),
            logs: [1, 8, 64].map(linear).into(),
        },
        Family {
            name: "four-word steps, circuit".to_string(),
            logs: [16, 64].into_iter().flat_map(circuits).collect(),
        },
        Family {
            name: "five-word deductions".to_string(),
            logs: [1, 8, 64].map(deductions).into(),
        },
    ]
}

/// Apart, since the rule of these rows has a request of its own.
pub fn cumulative() -> Family {
    Family {
        name: "four-word steps, cumulative".to_string(),
        logs: [16, 64].into_iter().flat_map(blockers).collect(),
    }
}

/// A row of which nothing but the bounds is needed.
fn bare(name: &str, mut bounds: Vec<(i32, i32)>, row: Row, variables: usize) -> Scenario {
    bounds.resize(variables, (0, 9));
    let model = Model {
        bounds,
        rows: vec![row],
    };
    let step = Step::Inference {
        row: 0,
        fact: Fact::default(),
    };
    let name = format!("{}, {name}", many(variables, "variable"));
    filled(&name, model, &[], step, usize::MAX)
}

fn linear(variables: usize) -> Scenario {
    let row = Row::linear(-1, &[(1, 0)]);
    bare("one term", vec![(0, 9)], row, variables)
}

fn deductions(variables: usize) -> Scenario {
    let model = Model {
        bounds: vec![(0, 9); variables],
        rows: vec![],
    };
    let step = Step::Deduction {
        fact: Fact::default(),
        hints: vec![FALSEHOOD],
    };
    let name = format!("{}, one hint", many(variables, "variable"));
    filled(&name, model, &[], step, usize::MAX)
}

/// 16 positions of which some set is never left.
fn circuits(variables: usize) -> [Scenario; 3] {
    let positions: Vec<usize> = (0..16).collect();
    let circuit = |name: &str, bounds| bare(name, bounds, Row::circuit(&positions), variables);
    let mut wide = vec![(-VALUE, VALUE); 16];
    wide[15] = (15, 15);
    // 0 leads to 15, each other to the one before it, and 1 to 2
    let mut downwards: Vec<(i32, i32)> = (0..16).map(|k| (k - 1, k - 1)).collect();
    downwards[0] = (15, 15);
    downwards[1] = (2, 2);
    // 0 leads anywhere, each other to the one after it, and 15 to 14
    let mut upwards: Vec<(i32, i32)> = (0..16).map(|k| (k + 1, k + 1)).collect();
    upwards[0] = (0, 15);
    upwards[15] = (14, 14);
    [
        circuit("one set of one", wide),
        circuit("a path downwards", downwards),
        circuit("a path upwards", upwards),
    ]
}

/// Eight fixed activities leave no start to the last one, and one start to each other.
fn blockers(variables: usize) -> [Scenario; 2] {
    [1, 8].map(|movers| {
        let blocked = 8 * (2 * DURATION - 1);
        let mut bounds: Vec<(i32, i32)> = (1..=8)
            .map(|k| -VALUE + k * (2 * DURATION - 1) - DURATION)
            .map(|start| (start, start))
            .collect();
        bounds.extend(vec![(-VALUE, -VALUE + blocked); movers]);
        let last = bounds.len() - 1;
        bounds[last].1 -= 1;
        let activities: Vec<(usize, i32, i32)> =
            (0..bounds.len()).map(|k| (k, DURATION, 1)).collect();
        let name = format!("8 blockers, {}", many(movers, "mover"));
        bare(&name, bounds, Row::cumulative(1, &activities), variables)
    })
}
