//! Random shapes, most of which are accepted.

use super::shape::Shape;
use generator::Random;
use tables::limits::{COEFFICIENT, DURATION, HINTS, PREMISES, ROW_LENGTH, VALUE, VARIABLES};
use tables::{at_least, at_most, equal, not_equal, Atom, Fact, Row};

impl Shape {
    pub fn draw(kind: &str, r: &mut Random) -> Shape {
        match kind {
            "deduction" => deduction(r),
            "linear" => linear(r),
            "all-different" => all_different(r),
            "circuit" => circuit(r),
            _ => cumulative(r),
        }
    }
}

/// Hints in order, each of which takes another value.
fn deduction(r: &mut Random) -> Shape {
    let bounds = vec![(0, r.between(4, 300)); variables(r, 1)];
    let fact = fact(r, &bounds);
    let mut cited: Vec<Fact> = Vec::new();
    let premises = r.between(0, PREMISES) as usize;
    for _ in 0..r.between(1, HINTS - 1) {
        let taken = hole(r, &bounds);
        let premise = holding(r, &fact, &cited, taken.variable);
        cited.push(Fact::new(&vec![premise; premises], Some(taken)));
    }
    Shape {
        fact,
        bounds,
        row: None,
        hints: (0..cited.len()).collect(),
        cited,
    }
}

/// An atom that holds once these facts have been cited: one of the values taken is not there.
fn holding(r: &mut Random, fact: &Fact, cited: &[Fact], variable: usize) -> Atom {
    let taken = cited.iter().filter_map(|fact| fact.consequent);
    let gone: Vec<Atom> = fact.premises.iter().copied().chain(taken).collect();
    if gone.is_empty() || r.chance(20) {
        return at_least(variable, 0);
    }
    *r.pick(&gone)
}

fn inference(bounds: Vec<(i32, i32)>, row: Row, premises: Vec<Atom>) -> Shape {
    Shape {
        bounds,
        row: Some(row),
        fact: Fact::new(&premises, None),
        cited: Vec::new(),
        hints: Vec::new(),
    }
}

fn linear(r: &mut Random) -> Shape {
    let bounds = vec![(-9, r.between(0, 99)); variables(r, 1)];
    let terms: Vec<(i32, usize)> = (0..r.between(1, ROW_LENGTH))
        .map(|_| (r.between(-COEFFICIENT, COEFFICIENT), r.below(bounds.len())))
        .collect();
    let premises = fact(r, &bounds).premises;
    inference(bounds, Row::linear(i32::MIN, &terms), premises)
}

fn all_different(r: &mut Random) -> Shape {
    let n = r.between(2, ROW_LENGTH) as usize;
    let bounds = vec![(0, n as i32 - 2); variables(r, n)];
    let premises: Vec<Atom> = (0..n).map(|k| at_most(k, VALUE)).collect();
    let chosen: Vec<usize> = (0..n).collect();
    inference(bounds, Row::all_different(&chosen), premises)
}

fn circuit(r: &mut Random) -> Shape {
    let n = r.between(2, ROW_LENGTH) as usize;
    let mut bounds = vec![(0, n as i32 - 1); variables(r, n)];
    let stuck = r.below(n) as i32;
    bounds[stuck as usize] = (stuck, stuck);
    let chosen: Vec<usize> = (0..n).collect();
    inference(bounds, Row::circuit(&chosen), Vec::new())
}

/// Fixed blockers, and activities that find no start beside them.
fn cumulative(r: &mut Random) -> Shape {
    let n = r.between(2, ROW_LENGTH) as usize;
    let blockers = r.between(1, n as i32 - 1) as usize;
    let lasts = r.between(1, DURATION);
    let mut bounds = vec![(0, 9); variables(r, n)];
    for (k, pair) in bounds.iter_mut().enumerate().take(n) {
        let start = k as i32 * (2 * lasts - 1) % VALUE;
        *pair = if k < blockers {
            (start, start)
        } else {
            (0, (blockers as i32 - 1) * (2 * lasts - 1) % VALUE)
        };
    }
    let activities: Vec<(usize, i32, i32)> = (0..n).map(|k| (k, lasts, 1)).collect();
    inference(bounds, Row::cumulative(1, &activities), Vec::new())
}

fn variables(r: &mut Random, least: usize) -> usize {
    if r.chance(50) {
        return least;
    }
    r.between(least as i32, VARIABLES) as usize
}

fn fact(r: &mut Random, bounds: &[(i32, i32)]) -> Fact {
    let count = r.between(0, PREMISES);
    let premises: Vec<Atom> = (0..count).map(|_| hole(r, bounds)).collect();
    Fact::new(&premises, None)
}

fn hole(r: &mut Random, bounds: &[(i32, i32)]) -> Atom {
    let variable = r.below(bounds.len());
    let (low, high) = bounds[variable];
    not_equal(variable, r.between(low, high))
}

pub fn atom(r: &mut Random, bounds: &[(i32, i32)]) -> Atom {
    let Atom {
        variable, value, ..
    } = hole(r, bounds);
    match r.below(8) {
        0 => at_most(variable, value),
        1 => at_least(variable, value),
        2 => equal(variable, value),
        _ => not_equal(variable, value),
    }
}
