//! 21 in a cumulative row: the times and sure usages, and a start that fits for each activity.

use super::model::Activity;
use super::page::{line, Page};
use super::values::{Left, Stretch, Values};

/// From the first time to the one before the end, what is surely used.
#[derive(Clone, Copy)]
struct Used {
    first: i64,
    end: i64,
    usage: i64,
}

pub fn conflicts(page: &mut Page, capacity: i32, activities: &[Activity], left: &Left) -> bool {
    let capacity = i64::from(capacity);
    let sure: Vec<Option<Used>> = activities.iter().map(|activity| surely(activity, &left[activity.start])).collect();
    line!(
        page,
        0,
        "Why: nothing that surely runs goes above the capacity {capacity}, and each activity can still be placed."
    );
    page.line(1, "What surely runs, from the largest start left to the smallest start left plus the duration:");
    for (k, activity) in activities.iter().enumerate() {
        let times = sure[k].map_or("at no time".to_string(), |used| format!("at {}", times(&used)));
        line!(
            page,
            2,
            "activity {k}, start x{}, lasts {}, uses {}: {times}",
            activity.start,
            activity.duration,
            activity.usage
        );
    }
    page.line(1, "What is surely used:");
    let together = profile(&sure);
    for used in &together {
        line!(page, 2, "at {}: {}", times(used), used.usage);
    }
    page.line(2, if together.is_empty() { "at no time anything" } else { "at any other time nothing" });
    page.line(1, "A start for each activity at which it fits beside what the others surely use:");
    let mut conflict = together.iter().any(|used| used.usage > capacity);
    for (k, activity) in activities.iter().enumerate() {
        match start_that_fits(activity, &left[activity.start], &without(&sure, k), capacity) {
            Some(start) => line!(page, 2, "activity {k}: {start}"),
            None => {
                line!(page, 2, "activity {k}: none");
                conflict = true;
            }
        }
    }
    conflict
}

fn times(used: &Used) -> String {
    match used.end - used.first {
        1 => format!("time {}", used.first),
        _ => format!("times {}", Stretch(used.first, used.end - 1)),
    }
}

/// When the activity runs wherever it starts.
fn surely(activity: &Activity, starts: &Values) -> Option<Used> {
    let used = Used {
        first: starts.largest(),
        end: starts.least() + i64::from(activity.duration),
        usage: activity.usage.into(),
    };
    (used.first < used.end).then_some(used)
}

/// The sure parts but that of one activity.
fn without(sure: &[Option<Used>], left_out: usize) -> Vec<Used> {
    let mut others = sure.to_vec();
    others[left_out] = None;
    profile(&others)
}

/// What is used together, stretch by stretch, where anything is.
fn profile(sure: &[Option<Used>]) -> Vec<Used> {
    let parts: Vec<Used> = sure.iter().flatten().copied().collect();
    let mut edges: Vec<i64> = parts.iter().flat_map(|used| [used.first, used.end]).collect();
    edges.sort_unstable();
    edges.dedup();
    let stretches = edges.windows(2).map(|pair| {
        let running = parts.iter().filter(|used| used.first <= pair[0] && pair[0] < used.end);
        Used { first: pair[0], end: pair[1], usage: running.map(|used| used.usage).sum() }
    });
    stretches.filter(|used| used.usage > 0).collect()
}

/// The least start at which the activity covers no time where it would go above the capacity.
fn start_that_fits(activity: &Activity, starts: &Values, others: &[Used], capacity: i64) -> Option<i64> {
    let usage = i64::from(activity.usage);
    if usage > capacity {
        return None;
    }
    let blocked = |start: i64| {
        let end = start + i64::from(activity.duration);
        let meets = |used: &&Used| used.first < end && start < used.end && used.usage + usage > capacity;
        others.iter().find(meets).map(|used| used.end)
    };
    let mut start = starts.next_from(i64::MIN)?;
    while let Some(end) = blocked(start) {
        start = starts.next_from(end)?;
    }
    Some(start)
}
