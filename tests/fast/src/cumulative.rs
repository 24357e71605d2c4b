//! Cumulative: the sure usages as a profile of stretches, and the starts that it blocks.

use crate::domains::Domains;

const MOST: usize = 16;

/// Runs surely from `from` up to but not at `to`; nowhere if `to` is not above `from`.
/// All usages of a row together fit in a word.
#[derive(Clone, Copy, Default)]
struct Sure {
    from: i32,
    to: i32,
    usage: i32,
}

/// A stretch of time with the same sure usage throughout.
#[derive(Clone, Copy, Default)]
struct Stretch {
    from: i32,
    to: i32,
    usage: i32,
}

/// The row is kind, n, capacity, then triples of start, duration and usage.
pub fn conflicts(row: &[i32], domains: &Domains) -> bool {
    let capacity = row[2];
    let mut sure = [Sure::default(); MOST];
    let mut count = 0;
    for activity in row[3..].chunks_exact(3) {
        sure[count] = sure_part(activity, domains);
        count += 1;
    }
    let mut stretches = [Stretch::default(); 2 * MOST];
    let length = profile(&sure[..count], &mut stretches);
    let stretches = &stretches[..length];
    let peak = stretches.iter().fold(0, |most, s| most.max(s.usage));
    if peak > capacity {
        return true;
    }
    let mut pairs = row[3..].chunks_exact(3).zip(&sure);
    pairs.any(|(activity, own)| {
        let fits_beside_the_peak = peak + own.usage <= capacity;
        // all of it is sure, and the sure usages are within the capacity
        let fixed = own.to - own.from == activity[1];
        !fits_beside_the_peak && !fixed && has_no_start(activity, own, capacity, stretches, domains)
    })
}

fn sure_part(activity: &[i32], domains: &Domains) -> Sure {
    let variable = activity[0] as usize;
    Sure {
        from: domains.high(variable),
        to: domains.low(variable) + activity[1],
        usage: activity[2],
    }
}

/// Fills in the stretches in the order of time and returns how many there are.
fn profile(sure: &[Sure], stretches: &mut [Stretch; 2 * MOST]) -> usize {
    let mut events = [(0, 0); 2 * MOST];
    let mut count = 0;
    for part in sure.iter().filter(|part| part.from < part.to) {
        events[count] = (part.from, part.usage);
        events[count + 1] = (part.to, -part.usage);
        count += 2;
    }
    let events = &mut events[..count];
    events.sort_unstable_by_key(|event| event.0);
    let mut usage = 0;
    let mut length = 0;
    for pair in events.windows(2) {
        usage += pair[0].1;
        if pair[0].0 < pair[1].0 && usage > 0 {
            stretches[length] = Stretch {
                from: pair[0].0,
                to: pair[1].0,
                usage,
            };
            length += 1;
        }
    }
    length
}

/// Whether every start left covers a time at which the activity does not fit.
fn has_no_start(
    activity: &[i32],
    own: &Sure,
    capacity: i32,
    stretches: &[Stretch],
    domains: &Domains,
) -> bool {
    if own.usage > capacity {
        return true;
    }
    let (variable, duration) = (activity[0] as usize, activity[1]);
    let high = domains.high(variable);
    // every start left below this one is blocked
    let mut next = domains.low(variable);
    for stretch in stretches {
        // the parts' ends are ends of stretches, so a stretch is within its own part or outside
        let within = own.from <= stretch.from && stretch.to <= own.to;
        let others = stretch.usage - if within { own.usage } else { 0 };
        if others + own.usage <= capacity {
            continue;
        }
        let first_blocked = stretch.from - duration + 1;
        while next < first_blocked && next <= high && !domains.has(variable, next) {
            next += 1;
        }
        if next > high {
            return true;
        }
        if next < first_blocked {
            return false;
        }
        next = next.max(stretch.to);
    }
    next > high
}
