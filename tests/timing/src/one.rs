//! One log, one subject, so many calls: for a profiler.

use crate::measure::call;
use crate::scenario::Scenario;
use crate::{bare, everyday, holes, subjects};
use std::hint::black_box;
use tables::limits::PLACES;

/// The name is that of a log, with its family's before it and a colon between where it has one.
pub fn run(name: &str, subject: &str, calls: usize) {
    let scenario = named(name).unwrap_or_else(|| panic!("there is no log {name}"));
    let (_, subject) = subjects::ALL
        .into_iter()
        .find(|(known, _)| *known == subject)
        .unwrap_or_else(|| panic!("there is no subject {subject}"));
    let mut places = vec![0; PLACES];
    for _ in 0..calls {
        black_box(call(subject, &scenario, &mut places));
    }
}

fn named(name: &str) -> Option<Scenario> {
    let mut families = holes::families();
    families.extend(bare::families());
    families.push(bare::cumulative());
    for family in families {
        for mut scenario in family.logs {
            scenario.name = format!("{}: {}", family.name, scenario.name);
            if scenario.name == name {
                return Some(scenario);
            }
        }
    }
    everyday::all().into_iter().find(|s| s.name == name)
}
