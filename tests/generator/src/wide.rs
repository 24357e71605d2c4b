//! Large models and facts close to where a row begins to conflict.

use crate::random::Random;
use tables::limits::{CAPACITY, COEFFICIENT, DURATION, VALUE};
use tables::{at_least, at_most, equal, not_equal, Activity, Atom, Fact, Model, Row, Step, Term};

/// A model with a row of up to 16 and one inference on it, close to passing or not.
pub fn wide(r: &mut Random) -> (Model, Vec<Step>) {
    match r.below(9) {
        0 | 1 => linear(r),
        2 | 3 => all_different(r),
        4 => pitted(r),
        5 => cumulative(r, 300, 120),
        6 => gap(r),
        7 => shared_start(r),
        _ => circuit(r),
    }
}

/// A cumulative row over all values that there are.
pub fn widest(r: &mut Random) -> (Model, Vec<Step>) {
    cumulative(r, VALUE, DURATION)
}

fn one_inference(
    bounds: Vec<(i32, i32)>,
    rows: Vec<Row>,
    premises: &[Atom],
    consequent: Option<Atom>,
) -> (Model, Vec<Step>) {
    let fact = Fact::new(premises, consequent);
    let steps = vec![
        Step::Inference { row: 0, fact },
        Step::NoAssignment { cited: 0 },
    ];
    (Model { bounds, rows }, steps)
}

/// Pairs of terms that all but cancel each other, so that the least sum is close to the bound.
fn linear(r: &mut Random) -> (Model, Vec<Step>) {
    let pairs = r.between(1, 8) as usize;
    let count = r.between(2 * pairs as i32, 64) as usize;
    let chosen = r.sample(2 * pairs, count);
    let mut bounds = vec![(-VALUE, VALUE); count];
    let mut terms = Vec::new();
    let mut premises = Vec::new();
    let mut least = 0i64;
    for pair in chosen.chunks_exact(2) {
        let coefficient = r.between(1, COEFFICIENT);
        let low = r.between(-VALUE + 200, VALUE - 200);
        let high = low + r.between(-100, 100);
        bound_below(r, &mut bounds, &mut premises, pair[0], low);
        bound_above(r, &mut bounds, &mut premises, pair[1], high);
        for (variable, factor) in [(pair[0], 1), (pair[1], -1)] {
            terms.push(Term {
                coefficient: factor * coefficient,
                variable,
            });
        }
        least += coefficient as i64 * (low as i64 - high as i64);
    }
    r.shuffle(&mut terms);
    premises.truncate(16);
    let bound = (least - r.between(0, 1) as i64).clamp(i32::MIN as i64, i32::MAX as i64);
    let row = Row::Linear {
        bound: bound as i32,
        terms,
    };
    let consequent = (premises.len() > 2 && r.chance(50)).then(|| premises.remove(0).negated());
    one_inference(bounds, vec![row], &premises, consequent)
}

/// The variable is at least `low`: by its bounds, by an atom, or by holes below.
fn bound_below(
    r: &mut Random,
    bounds: &mut [(i32, i32)],
    premises: &mut Vec<Atom>,
    variable: usize,
    low: i32,
) {
    match r.below(3) {
        0 => bounds[variable].0 = low,
        1 => {
            bounds[variable].0 = low - 1;
            premises.push(not_equal(variable, low - 1));
        }
        _ => premises.push(at_least(variable, low)),
    }
}

fn bound_above(
    r: &mut Random,
    bounds: &mut [(i32, i32)],
    premises: &mut Vec<Atom>,
    variable: usize,
    high: i32,
) {
    match r.below(3) {
        0 => bounds[variable].1 = high,
        1 => {
            bounds[variable].1 = high + 1;
            premises.push(not_equal(variable, high + 1));
        }
        _ => premises.push(at_most(variable, high)),
    }
}

/// Some variables that share one value fewer than there are of them, or just as many.
fn all_different(r: &mut Random) -> (Model, Vec<Step>) {
    let n = r.between(2, 16) as usize;
    let count = r.between(n as i32, 64) as usize;
    let variables = r.sample(n, count);
    let crowd = r.between(2, n as i32) as usize;
    let base = r.between(-VALUE, VALUE - 20);
    let values = crowd as i32 - r.between(0, 1);
    let mut bounds = vec![(-VALUE, VALUE); count];
    let mut premises = Vec::new();
    for &variable in &variables[..crowd] {
        let low = base + r.between(0, 1).min(values - 1);
        let high = base + values - 1;
        bounds[variable] = (low, high);
        premises.push(if r.chance(50) {
            at_least(variable, low)
        } else {
            at_most(variable, high + r.between(0, 1))
        });
    }
    widen_one(r, &mut bounds, &mut premises);
    let row = Row::all_different(&variables);
    one_inference(bounds, vec![row], &premises, None)
}

/// Gives one variable a value more and takes one away again by a hole.
fn widen_one(r: &mut Random, bounds: &mut [(i32, i32)], premises: &mut [Atom]) {
    let index = r.below(premises.len());
    let variable = premises[index].variable;
    if bounds[variable].1 < VALUE && r.chance(60) {
        bounds[variable].1 += 1;
        let (low, high) = bounds[variable];
        premises[index] = not_equal(variable, r.between(low, high));
    }
}

/// Variables that share an interval with the same holes in it.
fn pitted(r: &mut Random) -> (Model, Vec<Step>) {
    let n = r.between(2, 8);
    let holes = r.between(1, 16 / n);
    let values = n - r.between(0, 1);
    let base = r.between(-VALUE, VALUE - 40);
    let mut removed = r.sample(holes as usize, (values + holes) as usize);
    r.shuffle(&mut removed);
    let mut premises = Vec::new();
    for variable in 0..n as usize {
        let atoms = removed.iter().map(|&offset| base + offset as i32);
        premises.extend(atoms.map(|value| not_equal(variable, value)));
    }
    r.shuffle(&mut premises);
    let bounds = vec![(base, base + values + holes - 1); n as usize];
    let row = Row::all_different(&r.sample(n as usize, n as usize));
    one_inference(bounds, vec![row], &premises, None)
}

/// One activity that fits only between two fixed ones, at starts that holes may take away.
fn gap(r: &mut Random) -> (Model, Vec<Step>) {
    let duration = r.between(2, 40);
    let free = r.between(1, 4);
    let first = r.between(-VALUE, VALUE - 200);
    let second = first + duration + free;
    let bounds = vec![
        (first, first),
        (second, second),
        (
            first - r.between(0, duration - 1).min(first + VALUE),
            second,
        ),
    ];
    let row = Row::cumulative(2, &[(0, 1, 1), (1, 1, 1), (2, duration, 2)]);
    let mut premises: Vec<Atom> = (0..free).map(|k| not_equal(2, first + 1 + k)).collect();
    if r.chance(40) {
        premises.remove(r.below(premises.len()));
    }
    one_inference(bounds, vec![row], &premises, None)
}

/// Two activities with one start: the sure part of the longer one and a fixed third one leave no
/// start to the shorter one, or just one start.
fn shared_start(r: &mut Random) -> (Model, Vec<Step>) {
    let short = r.between(2, 30);
    let first = r.between(-VALUE, VALUE - 200);
    let last = first + 2 * short - 1 + r.between(0, 1);
    let long = last - first + r.between(0, 3);
    let block = first + short - 1;
    let row = Row::cumulative(3, &[(0, short, 2), (0, long, 2), (1, 1, 2)]);
    let premises = starts(r, &[(first, last)]);
    let bounds = vec![(first, last), (block, block)];
    one_inference(bounds, vec![row], &premises, None)
}

/// Activities around one time, with a capacity close to what is sure there.
fn cumulative(r: &mut Random, value: i32, duration: i32) -> (Model, Vec<Step>) {
    let n = r.between(1, 16) as usize;
    let count = r.between(1, 20) as usize;
    let time = r.between(-value, value);
    let mut bounds = Vec::new();
    for _ in 0..count {
        let low = (time - r.between(0, duration)).max(-VALUE);
        bounds.push((low, r.between(low, time.max(low))));
    }
    let mut activities = Vec::new();
    let mut sure = 0;
    for _ in 0..n {
        let activity = Activity {
            start: r.below(count),
            duration: r.between(1, duration),
            usage: r.between(0, CAPACITY / 16),
        };
        let (low, high) = bounds[activity.start];
        if high <= time && time < low + activity.duration {
            sure += activity.usage;
        }
        activities.push(activity);
    }
    let capacity = (sure - r.between(-1, 2)).max(0);
    let row = Row::Cumulative {
        capacity,
        activities,
    };
    let premises = starts(r, &bounds);
    one_inference(bounds, vec![row], &premises, None)
}

/// Premises that narrow some starts.
fn starts(r: &mut Random, bounds: &[(i32, i32)]) -> Vec<Atom> {
    let mut premises = Vec::new();
    for (variable, &(low, high)) in bounds.iter().enumerate().take(8) {
        match r.below(5) {
            0 => premises.push(at_least(variable, r.between(low, high))),
            1 => premises.push(at_most(variable, r.between(low, high))),
            2 if low < high => premises.push(not_equal(variable, *r.pick(&[low, high]))),
            _ => {}
        }
    }
    premises
}

/// A closed set of positions in a circuit of up to 16, with at most one way out.
fn circuit(r: &mut Random) -> (Model, Vec<Step>) {
    let n = r.between(2, 16) as usize;
    let count = r.between(n as i32, 64) as usize;
    let variables = r.sample(n, count);
    let mut bounds = vec![(-VALUE, VALUE); count];
    let size = r.between(1, n as i32) as usize;
    let members = r.sample(size, n);
    let mut premises = Vec::new();
    for (index, &position) in members.iter().enumerate() {
        let next = members[(index + 1) % members.len()] as i32;
        let variable = variables[position];
        match r.below(3) {
            0 => bounds[variable] = (next, next),
            1 => premises.push(equal(variable, next)),
            _ => {
                bounds[variable] = (next, next + 1);
                premises.push(not_equal(variable, next + 1));
            }
        }
    }
    if r.chance(30) && !premises.is_empty() {
        premises.remove(r.below(premises.len()));
    }
    one_inference(bounds, vec![Row::circuit(&variables)], &premises, None)
}
